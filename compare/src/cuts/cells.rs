//! The cell call: the cut lines of one cell of a drawing.

use super::lent::{Inputs, WORKING, Working, fill, written};
use crate::against::guarded::{Guarded, WIDE_GUARD};
use crate::library::{self, CellReply};
use crate::make::Rng;
use crate::paper::layout::Layout;
use crate::paper::sheet::Sheet;
use crate::paper::{Answer, Refusal};
use crate::parser::grid_table::Built;
use crate::tally::Tally;

/// Line, start, end and column of each inner line of each cell, out of the
/// Rust's fragments.
pub fn cuts(read: &Layout, built: &Built, bytes: &[usize]) -> Vec<Vec<u16>> {
    let n = |number: usize| u16::try_from(number).unwrap();
    let mut all = vec![];
    for (cell, (_, cuts)) in read.cells.iter().zip(&built.cells) {
        let first = read.rows[cell.row].top + 1;
        let mut numbers = vec![];
        for (i, (text, _, byte, column)) in cuts.iter().enumerate() {
            let start = byte - bytes[first + i];
            numbers.extend([first + i, start, start + text.len(), *column].map(n));
        }
        all.push(numbers);
    }
    all
}

/// Buffers between guards.
pub struct Cells {
    pub calls: usize,
    inputs: Inputs,
    working: Working,
    out: Guarded<u16>,
    filling: u16,
}

/// One call: the cell asked for, and the lengths of what is lent.
#[derive(Clone, Copy, Debug)]
struct Asked {
    cell: usize,
    space: [usize; 6],
    out: usize,
}

impl Cells {
    pub fn new() -> Cells {
        Cells {
            calls: 0,
            inputs: Inputs::new(),
            working: Working::new(),
            out: Guarded::new(WIDE_GUARD),
            filling: 0,
        }
    }

    /// Up to three cells of a drawing, a number past the last one, short
    /// working space and short outputs.
    pub fn sheet(
        &mut self,
        rng: &mut Rng,
        tally: &mut Tally,
        sheet: &Sheet,
        answer: &Answer<Vec<Vec<u16>>>,
    ) {
        let mut asked = Asked {
            cell: rng.below(4),
            space: WORKING,
            out: rng.below(40),
        };
        let cuts = match answer {
            Err(refusal) => {
                self.call("cells", tally, sheet, asked, Err(*refusal));
                return;
            }
            Ok(cuts) => cuts,
        };
        for _ in 0..3 {
            let cell = rng.below(cuts.len());
            asked.cell = cell;
            asked.out = cuts[cell].len() + rng.pick(&[0, 0, 1, 2, 5, 40]);
            self.call("cells", tally, sheet, asked, Ok(&cuts[cell]));
            if !cuts[cell].is_empty() {
                let mut short = asked;
                short.out = rng.shorter(cuts[cell].len());
                self.refused("cells: short outputs", tally, sheet, short, 12);
            }
        }
        if rng.once_in(4) {
            let mut short = asked;
            let i = rng.below(6);
            short.space[i] = rng.shorter(WORKING[i]);
            self.refused("cells: short working space", tally, sheet, short, 13);
        }
        let past = [cuts.len(), cuts.len() + 1, 1_024, usize::MAX];
        asked.cell = rng.pick(&past).max(cuts.len());
        asked.out = rng.below(40);
        self.refused("cells: past the last", tally, sheet, asked, 13);
    }

    fn refused(
        &mut self,
        kind: &'static str,
        tally: &mut Tally,
        sheet: &Sheet,
        asked: Asked,
        number: usize,
    ) {
        let refusal = Refusal { number, place: 0 };
        self.call(kind, tally, sheet, asked, Err(refusal));
    }

    fn call(
        &mut self,
        kind: &'static str,
        tally: &mut Tally,
        sheet: &Sheet,
        asked: Asked,
        answer: Answer<&[u16]>,
    ) {
        let expected = match answer {
            Ok(cuts) => CellReply {
                number: 0,
                place: 0,
                lines: cuts.len() / 4,
            },
            Err(refusal) => CellReply {
                number: refusal.number,
                place: refusal.place,
                lines: 0,
            },
        };
        self.calls += 1;
        tally.count(kind, "cell", expected.number);
        self.filling = self.filling.wrapping_add(0x3D1);
        fill(&mut self.out, asked.out, self.filling);
        let drawing = self.inputs.drawing(sheet);
        let (space, starts) = self.working.lend(asked.space);
        let out = self.out.entries(asked.out);
        let got = library::cell(drawing, space, starts, asked.cell, out);
        let input = (sheet, asked);
        if got != expected {
            tally.differ("cell", &input, &expected, &got);
        }
        let result = answer.unwrap_or_default();
        let lent = self.inputs.changed(sheet);
        let lent = lent.or_else(|| self.working.changed(asked.space));
        if let Some(array) = lent {
            tally.differ(array, &input, &(), &());
        }
        if !written(&mut self.out, asked.out, result, self.filling) {
            let got = self.out.entries(asked.out).to_vec();
            tally.differ("cut lines of a cell", &input, &result, &got);
        }
    }
}
