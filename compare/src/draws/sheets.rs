//! The call from a drawing to its redrawing.

use super::answers::Expected;
use super::lent::{self, Outputs, TableArrays, Working};
use crate::against::guarded::{GUARD, Guarded};
use crate::cuts::lent::{Inputs, WORKING, Working as ReadWorking};
use crate::library::{self, COUNT_SPACE, MoreSpace, SheetReply};
use crate::make::Rng;
use crate::paper::sheet::Sheet;
use crate::tally::Tally;

/// Buffers between guards.
pub struct Sheets {
    inputs: Inputs,
    reading: ReadWorking,
    counts: Guarded<u8>,
    between: TableArrays,
    working: Working,
    outputs: Outputs,
}

/// A drawing and the origin of its redrawing.
#[derive(Debug)]
pub struct Given<'t> {
    pub sheet: &'t Sheet,
    pub origin: usize,
}

#[derive(Clone, Copy, Debug)]
struct Lengths {
    reading: [usize; 6],
    counts: usize,
    between: [usize; 5],
    drawing: lent::Lengths,
}

impl Lengths {
    fn enough(rng: &mut Rng, expected: &Expected) -> Lengths {
        let mut lengths = Lengths {
            reading: WORKING,
            counts: COUNT_SPACE,
            between: lent::between(rng, false),
            drawing: lent::Lengths::enough(rng, expected),
        };
        if rng.once_in(4) {
            lengths.reading[rng.below(6)] += rng.between(1, 40);
            lengths.counts += rng.below(3);
        }
        lengths
    }

    fn short_space(mut self, rng: &mut Rng) -> Lengths {
        match rng.below(19) {
            i @ 0..6 => self.reading[i] = rng.shorter(WORKING[i]),
            6 => self.counts = rng.shorter(COUNT_SPACE),
            7..12 => self.between = lent::between(rng, true),
            _ => self.drawing = self.drawing.short_space(rng),
        }
        self
    }
}

const STEPS: [&str; 3] = [
    "redraw_sheet, accepted:",
    "redraw_sheet, reading:",
    "redraw_sheet, redraw:",
];

impl Sheets {
    pub fn new() -> Sheets {
        Sheets {
            inputs: Inputs::new(),
            reading: ReadWorking::new(),
            counts: Guarded::new(GUARD),
            between: TableArrays::new(),
            working: Working::new(),
            outputs: Outputs::new(),
        }
    }

    /// The calls on one drawing: with space enough; with short working space;
    /// and, where it is accepted, with a short output array.
    pub fn sheet(
        &mut self,
        rng: &mut Rng,
        tally: &mut Tally,
        given: &Given<'_>,
        (step, expected): (usize, &Expected),
    ) {
        let lengths = Lengths::enough(rng, expected);
        let kind = "calls: redraw_sheet";
        self.call(kind, tally, given, (step, expected), lengths);
        if rng.once_in(4) {
            let refused = Expected::refused(13, 0);
            let short = lengths.short_space(rng);
            let kind = "calls: redraw_sheet, short working space";
            self.call(kind, tally, given, (1, &refused), short);
        }
        if step == 0 && rng.once_in(3) {
            let refused = Expected::refused(12, 0);
            let mut short = lengths;
            short.drawing = lengths.drawing.short_output(rng, expected);
            let kind = "calls: redraw_sheet, short outputs";
            self.call(kind, tally, given, (2, &refused), short);
        }
    }

    fn call(
        &mut self,
        kind: &'static str,
        tally: &mut Tally,
        given: &Given<'_>,
        (step, expected): (usize, &Expected),
        lengths: Lengths,
    ) {
        tally.count(kind, STEPS[step], expected.reply.number);
        let reply = SheetReply {
            step,
            number: expected.reply.number,
            place: expected.reply.place,
            lines: expected.reply.lines,
            bytes: expected.reply.bytes,
        };
        let got = self.run(given, lengths);
        if got != reply {
            tally.differ("redraw_sheet", given, &reply, &got);
        }
        if let Some(array) = self.changed(given, lengths, expected) {
            tally.differ(array, given, expected, &lengths);
        }
    }

    fn run(&mut self, given: &Given<'_>, lengths: Lengths) -> SheetReply {
        let (space, starts) = self.reading.lend(lengths.reading);
        self.counts.lend(lengths.counts);
        let more = MoreSpace {
            starts,
            counts: self.counts.entries(lengths.counts),
        };
        library::redraw_sheet(
            self.inputs.drawing(given.sheet),
            given.origin,
            (space, more),
            self.between.space(lengths.between),
            self.working.lend(lengths.drawing.space),
            self.outputs.lend(lengths.drawing.output),
        )
    }

    /// The first buffer that is not as it must be after the call.
    fn changed(
        &mut self,
        given: &Given<'_>,
        lengths: Lengths,
        expected: &Expected,
    ) -> Option<&'static str> {
        let counts = self.counts.guards_kept(lengths.counts);
        let inputs = self.inputs.changed(given.sheet);
        inputs
            .or_else(|| self.reading.changed(lengths.reading))
            .or_else(|| (!counts).then_some("counts"))
            .or_else(|| self.between.space_changed(lengths.between))
            .or_else(|| self.working.changed(lengths.drawing.space))
            .or_else(|| self.outputs.changed(lengths.drawing.output, expected))
    }
}
