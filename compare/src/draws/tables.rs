//! The redraw call on tables.

use super::answers::Expected;
use super::lent::{Lengths, Outputs, TableArrays, Working};
use crate::library::{self, RedrawReply};
use crate::make::Rng;
use crate::paper::flat::Flat;
use crate::tally::Tally;

/// Buffers between guards.
pub struct Tables {
    inputs: TableArrays,
    working: Working,
    outputs: Outputs,
}

/// A table and the origin of its drawing.
#[derive(Debug)]
pub struct Given<'t> {
    pub flat: &'t Flat,
    pub origin: usize,
}

impl Tables {
    pub fn new() -> Tables {
        Tables {
            inputs: TableArrays::new(),
            working: Working::new(),
            outputs: Outputs::new(),
        }
    }

    /// The calls on one table: with space enough; with short working space;
    /// and, where it is accepted, with a short output array.
    pub fn table(&mut self, rng: &mut Rng, tally: &mut Tally, given: &Given, expected: &Expected) {
        let lengths = Lengths::enough(rng, expected);
        self.call("calls: redraw", tally, given, expected, lengths);
        if rng.once_in(8) {
            let refused = Expected::refused(13, 0);
            let short = lengths.short_space(rng);
            let kind = "calls: redraw, short working space";
            self.call(kind, tally, given, &refused, short);
        }
        if expected.reply.number == 0 && rng.once_in(3) {
            let refused = Expected::refused(12, 0);
            let short = lengths.short_output(rng, expected);
            let kind = "calls: redraw, short outputs";
            self.call(kind, tally, given, &refused, short);
        }
    }

    fn call(
        &mut self,
        kind: &'static str,
        tally: &mut Tally,
        given: &Given<'_>,
        expected: &Expected,
        lengths: Lengths,
    ) {
        tally.count(kind, "redraw", expected.reply.number);
        let got = self.run(given, lengths);
        if got != expected.reply {
            tally.differ("redraw", given, &expected.reply, &got);
        }
        if let Some(array) = self.changed(given, lengths, expected) {
            tally.differ(array, given, expected, &lengths);
        }
    }

    fn run(&mut self, given: &Given<'_>, lengths: Lengths) -> RedrawReply {
        library::redraw(
            self.inputs.input(given.flat),
            given.origin,
            self.working.lend(lengths.space),
            self.outputs.lend(lengths.output),
        )
    }

    /// The first buffer that is not as it must be after the call.
    fn changed(
        &mut self,
        given: &Given<'_>,
        lengths: Lengths,
        expected: &Expected,
    ) -> Option<&'static str> {
        let inputs = self.inputs.input_changed(given.flat);
        inputs
            .or_else(|| self.working.changed(lengths.space))
            .or_else(|| self.outputs.changed(lengths.output, expected))
    }
}
