//! The positions of a drawing's table, rows and cells, and of one cell.

use crate::against::guarded::{Guarded, WIDEST_GUARD};
use crate::against::{limits as near, small};
use crate::cuts::lent::{Inputs, WORKING, Working, fill, written};
use crate::given;
use crate::library::beside::{self, CellPositionReply, Placed, PositionsOutput, PositionsReply};
use crate::make::{self, Rng};
use crate::paper::layout::Space;
use crate::paper::positions::{self, Position, Positions};
use crate::paper::sheet::Sheet;
use crate::paper::{Answer, Refusal, limits, refuse};
use crate::tally::Tally;

pub fn run(rng: Rng, n: usize) -> Tally {
    let mut run = Run {
        rng,
        lent: Lent::new(),
        tally: Tally::default(),
        drawings: 0,
    };
    for (sheet, _) in make::edge::sheets() {
        run.sheet("positions: cases of document 01", &sheet);
    }
    // At most half of the drawings are small ones.
    let step = (2 * small::count()).div_ceil(n).max(1);
    small::evenly(step, |sheet| run.sheet("positions: small drawings", sheet));
    while run.drawings < n {
        run.random();
    }
    run.tally
}

struct Run {
    rng: Rng,
    lent: Lent,
    tally: Tally,
    drawings: usize,
}

/// A drawing with the number and the table byte of each line.
#[derive(Clone, Debug)]
pub struct Given<'s> {
    pub sheet: &'s Sheet,
    pub numbers: Vec<u32>,
    pub table_bytes: Vec<u32>,
}

/// Lengths of working space and of the two output arrays.
#[derive(Clone, Copy, Debug)]
struct Lengths {
    space: [usize; 6],
    output: [usize; 2],
}

/// What the call answers and writes.
#[derive(Debug, Default)]
struct Expected {
    reply: PositionsReply,
    rows: Vec<u32>,
    cells: Vec<u32>,
}

impl Expected {
    fn of(answer: &Answer<Positions>) -> Expected {
        let found = match answer {
            Ok(found) => found,
            Err(refusal) => return Expected::refused(*refusal),
        };
        let [start_line, start_column, end_line, end_column] = four(found.table);
        let flat = |all: &[Position]| all.iter().flat_map(|&p| four(p)).collect();
        Expected {
            reply: PositionsReply {
                number: 0,
                place: 0,
                start_line,
                start_column,
                end_line,
                end_column,
                rows: found.rows.len(),
                cells: found.cells.len(),
            },
            rows: flat(&found.rows),
            cells: flat(&found.cells),
        }
    }

    fn refused(refusal: Refusal) -> Expected {
        Expected {
            reply: PositionsReply {
                number: refusal.number,
                place: refusal.place,
                ..PositionsReply::default()
            },
            ..Expected::default()
        }
    }

    fn output(&self) -> [usize; 2] {
        [self.rows.len(), self.cells.len()]
    }
}

pub fn four(position: Position) -> [u32; 4] {
    let (line, column, end_line, end_column) = position;
    [line, column, end_line, end_column].map(|n| u32::try_from(n).unwrap())
}

fn cell_reply(answer: Answer<Position>) -> CellPositionReply {
    match answer {
        Ok(position) => {
            let [start_line, start_column, end_line, end_column] = four(position);
            CellPositionReply {
                number: 0,
                place: 0,
                start_line,
                start_column,
                end_line,
                end_column,
            }
        }
        Err(refusal) => CellPositionReply {
            number: refusal.number,
            place: refusal.place,
            ..CellPositionReply::default()
        },
    }
}

/// The Rust's positions where the second reading accepts; none where they
/// disagree.
pub fn answer(given: &Given<'_>) -> Option<Answer<Positions>> {
    let sizes = |array: &[u32]| -> Vec<usize> { array.iter().map(|&n| n as usize).collect() };
    let (numbers, bytes) = (sizes(&given.numbers), sizes(&given.table_bytes));
    match positions::positions(given.sheet, &numbers, &bytes, Space::ENOUGH) {
        Ok((_, paper)) => {
            let built = given::build(given.sheet, &numbers, &bytes)?;
            let rust = given::positions(&built);
            (rust == paper).then_some(Ok(rust))
        }
        Err(refusal) => Some(Err(refusal)),
    }
}

/// A number for each line: few, any, or around the limit.
pub fn numbers(rng: &mut Rng, lines: usize) -> Vec<u32> {
    let most = limits::REGISTER_NUMBER;
    let (low, high) = rng.pick(&[(0, 0), (0, 3), (0, most), (most - 3, most), (most, most)]);
    let rising = rng.once_in(2) && low + lines <= most;
    let number = |r: usize| {
        let number = if rising {
            low + r
        } else {
            rng.between(low, high)
        };
        u32::try_from(number).unwrap()
    };
    let mut numbers: Vec<u32> = (0..lines).map(number).collect();
    if lines > 0 && rng.once_in(24) {
        let past = 65_536;
        numbers[rng.below(lines)] = rng.pick(&[past, past, past + 1, u32::MAX]);
    }
    if rng.once_in(48) {
        numbers.resize((lines + 1).saturating_sub(2 * rng.below(2)), 0);
    }
    numbers
}

impl Run {
    fn random(&mut self) {
        match self.rng.below(1_000) {
            0..=9 => {
                let sheet = near::sheet(&mut self.rng);
                self.sheet("positions: drawings at a limit", &sheet);
            }
            10..=49 => {
                let sheet = near::contradictory(&mut self.rng);
                self.sheet("positions: contradictory sizes", &sheet);
            }
            _ => {
                let sheet = make::sheets::sheet(&mut self.rng);
                let fits = |&n: &usize| n <= usize::from(u16::MAX);
                if sheet.lengths.iter().all(fits) {
                    self.sheet("positions: random and damaged drawings", &sheet);
                }
            }
        }
    }

    fn sheet(&mut self, kind: &'static str, sheet: &Sheet) {
        self.drawings += 1;
        self.tally.kind(kind);
        let lines = sheet.lengths.len();
        let given = Given {
            sheet,
            numbers: numbers(&mut self.rng, lines),
            table_bytes: numbers(&mut self.rng, lines),
        };
        match answer(&given) {
            Some(answer) => {
                self.positions(&given, &Expected::of(&answer));
                self.cells(&given, &answer);
            }
            None => self.tally.differ("the oracles disagree", &given, &(), &()),
        }
    }

    /// With space enough; with short working space; and, where the drawing is
    /// accepted, with short output arrays.
    fn positions(&mut self, given: &Given<'_>, expected: &Expected) {
        let more: &[usize] = match expected.reply.number {
            0 => &[0, 0, 1, 2, 5, 40],
            _ => &[0, 3, 20, 60, 200],
        };
        let lengths = Lengths {
            space: WORKING,
            output: expected.output().map(|need| need + self.rng.pick(more)),
        };
        self.call("calls: positions", given, expected, lengths);
        if self.rng.once_in(8) {
            let mut short = lengths;
            short.space = short_space(&mut self.rng);
            let kind = "calls: positions, short working space";
            self.refused(kind, given, 13, short);
        }
        for (i, need) in expected.output().into_iter().enumerate() {
            if need > 0 && self.rng.once_in(3) {
                let mut short = lengths;
                short.output[i] = self.rng.shorter(need);
                self.refused("calls: positions, short outputs", given, 12, short);
            }
        }
    }

    fn refused(&mut self, kind: &'static str, given: &Given<'_>, number: usize, lengths: Lengths) {
        let expected = Expected::refused(Refusal { number, place: 0 });
        self.call(kind, given, &expected, lengths);
    }

    fn call(
        &mut self,
        kind: &'static str,
        given: &Given<'_>,
        expected: &Expected,
        lengths: Lengths,
    ) {
        self.tally.count(kind, "positions", expected.reply.number);
        let got = self.lent.positions(given, lengths);
        if got != expected.reply {
            self.tally.differ("positions", given, &expected.reply, &got);
        }
        let changed = self.lent.changed(given, lengths.space);
        let changed = changed.or_else(|| self.lent.output_changed(lengths, expected));
        if let Some(array) = changed {
            self.tally.differ(array, given, expected, &lengths);
        }
    }

    /// Up to three cells, the number past the last, and short working space.
    fn cells(&mut self, given: &Given<'_>, answer: &Answer<Positions>) {
        let found = match answer {
            Ok(found) => &found.cells,
            Err(refusal) => {
                let k = self.rng.pick(&[0, 1, usize::MAX]);
                self.cell("calls: a cell's position", given, k, Err(*refusal), WORKING);
                return;
            }
        };
        for _ in 0..found.len().min(3) {
            let k = self.rng.below(found.len());
            self.cell("calls: a cell's position", given, k, Ok(found[k]), WORKING);
        }
        let past = self.rng.pick(&[found.len(), found.len() + 1, usize::MAX]);
        let kind = "calls: a cell's position, past the last";
        self.cell(kind, given, past, refuse(13, 0), WORKING);
        if self.rng.once_in(8) {
            let short = short_space(&mut self.rng);
            let kind = "calls: a cell's position, short working space";
            self.cell(kind, given, 0, refuse(13, 0), short);
        }
    }

    fn cell(
        &mut self,
        kind: &'static str,
        given: &Given<'_>,
        k: usize,
        answer: Answer<Position>,
        space: [usize; 6],
    ) {
        let expected = cell_reply(answer);
        self.tally.count(kind, "cell position", expected.number);
        let got = self.lent.cell_position(given, k, space);
        if got != expected {
            self.tally
                .differ("cell position", &(given, k), &expected, &got);
        }
        if let Some(array) = self.lent.changed(given, space) {
            self.tally.differ(array, &(given, k), &(), &space);
        }
    }
}

fn short_space(rng: &mut Rng) -> [usize; 6] {
    let mut space = WORKING;
    let i = rng.below(WORKING.len());
    space[i] = rng.shorter(WORKING[i]);
    space
}

/// The drawing, line numbers and table bytes, each array between guards.
struct PlacedInputs {
    inputs: Inputs,
    numbers: Guarded<u32>,
    table_bytes: Guarded<u32>,
}

impl PlacedInputs {
    fn put(&mut self, given: &Given<'_>) -> Placed<'_> {
        self.numbers.put(&given.numbers);
        self.table_bytes.put(&given.table_bytes);
        Placed {
            drawing: self.inputs.drawing(given.sheet),
            numbers: self.numbers.entries(given.numbers.len()),
            table_bytes: self.table_bytes.entries(given.table_bytes.len()),
        }
    }

    /// The first array that is not as it was.
    fn changed(&mut self, given: &Given<'_>) -> Option<&'static str> {
        if !self.numbers.holds(&given.numbers) {
            return Some("line numbers");
        }
        if !self.table_bytes.holds(&given.table_bytes) {
            return Some("table bytes");
        }
        self.inputs.changed(given.sheet)
    }
}

/// Buffers between guards.
struct Lent {
    placed: PlacedInputs,
    working: Working,
    rows: Guarded<u32>,
    cells: Guarded<u32>,
    /// What the output arrays hold before the call: another value each time.
    filling: u32,
}

impl Lent {
    fn new() -> Lent {
        let wide = || Guarded::new(WIDEST_GUARD);
        Lent {
            placed: PlacedInputs {
                inputs: Inputs::new(),
                numbers: wide(),
                table_bytes: wide(),
            },
            working: Working::new(),
            rows: wide(),
            cells: wide(),
            filling: 0,
        }
    }

    fn positions(&mut self, given: &Given<'_>, lengths: Lengths) -> PositionsReply {
        let [rows, cells] = lengths.output;
        self.filling = self.filling.wrapping_add(0x9E37_79B1);
        fill(&mut self.rows, rows, self.filling);
        fill(&mut self.cells, cells, self.filling);
        let (space, starts) = self.working.lend(lengths.space);
        let output = PositionsOutput {
            rows: self.rows.entries(rows),
            cells: self.cells.entries(cells),
        };
        beside::positions(self.placed.put(given), space, starts, output)
    }

    fn cell_position(
        &mut self,
        given: &Given<'_>,
        k: usize,
        lengths: [usize; 6],
    ) -> CellPositionReply {
        let (space, starts) = self.working.lend(lengths);
        beside::cell_position(self.placed.put(given), space, starts, k)
    }

    /// The first input that is not as it was, or working array whose guards
    /// were not kept.
    fn changed(&mut self, given: &Given<'_>, space: [usize; 6]) -> Option<&'static str> {
        let inputs = self.placed.changed(given);
        inputs.or_else(|| self.working.changed(space))
    }

    /// The first output array that is not as it must be.
    fn output_changed(&mut self, lengths: Lengths, expected: &Expected) -> Option<&'static str> {
        let [rows, cells] = lengths.output;
        if !written(&mut self.rows, rows, &expected.rows, self.filling) {
            return Some("positions of rows");
        }
        let kept = written(&mut self.cells, cells, &expected.cells, self.filling);
        (!kept).then_some("positions of cells")
    }
}
