//! `compare cut`: the library's cutting, table and cell calls, held against
//! the Rust and the second reading.

mod cells;
pub mod lent;
mod lines;
mod tables;

use std::fmt::Debug;

use crate::against::guarded::{GUARD, Guarded};
use crate::against::{self, limits, small};
use crate::library::{self, CutReply, Cutting};
use crate::make::{self, Rng};
use crate::paper::cut::Line;
use crate::paper::layout::Layout;
use crate::paper::sheet::Sheet;
use crate::paper::{self, Refusal};
use crate::parser::grid_table::{self, Built, CutLine, PlacedLine};
use crate::tally::Tally;
use cells::Cells;
use tables::Tables;

pub const SEED: u64 = 1;
pub const CUTS: usize = 5_000_000;

/// Small drawings that are cut: one in so many.
const SMALL_STEP: usize = 16;

/// True when no difference was found.
pub fn run(seed: u64, cuts: usize) -> bool {
    let mut run = Run {
        rng: Rng::new(seed),
        text: Guarded::new(GUARD),
        tables: Tables::new(),
        cells: Cells::new(),
        tally: Tally::default(),
        cuts: 0,
    };
    run.small_lines(cuts);
    for (sheet, _) in make::edge::sheets() {
        run.sheet("cases of document 01", &sheet);
    }
    run.small_sheets(cuts);
    while run.cuts < cuts {
        run.random();
    }
    let tally = &run.tally;
    tally.print_counts();
    println!("cuts: {}", run.cuts);
    println!("table calls: {}", run.tables.calls);
    println!("cell calls: {}", run.cells.calls);
    tally.print_differences()
}

struct Run {
    rng: Rng,
    text: Guarded<u8>,
    tables: Tables,
    cells: Cells,
    tally: Tally,
    cuts: usize,
}

/// A line that is cut, the range and the left column.
struct Given<'t> {
    line: Line<'t>,
    range: (usize, usize),
    left: usize,
}

impl Debug for Given<'_> {
    fn fmt(&self, f: &mut std::fmt::Formatter<'_>) -> std::fmt::Result {
        let line = &self.line;
        let numbers = (line.line, line.byte, line.column);
        let text = line.text.escape_ascii();
        write!(f, "\"{text}\" {numbers:?} {:?} {}", self.range, self.left)
    }
}

/// The Rust's cut line in the form of the call's reply.
fn reply(rust: &CutLine, byte: usize) -> CutReply {
    let (text, line, at, column) = rust;
    CutReply {
        number: 0,
        place: 0,
        start: at - byte,
        end: at - byte + text.len(),
        line: *line,
        byte: *at,
        column: *column,
    }
}

impl Run {
    /// All short lines over seven signs, each range of them and past their
    /// ends, some columns; or evenly chosen ones, at most a fifth of the cuts.
    fn small_lines(&mut self, cuts: usize) {
        let total = lines::small_count();
        let mut step = (5 * total).div_ceil(cuts).max(1);
        // No factor in common with the 20 columns and lefts of a range.
        while step.is_multiple_of(2) || step.is_multiple_of(5) {
            step += 1;
        }
        println!("small cuts in all: {total}, of which one in {step}");
        let mut number = 0;
        lines::small(|text, range, column, left| {
            if number % step == 0 {
                let line = Line {
                    text,
                    line: 1,
                    byte: 0,
                    column,
                };
                self.one("small cuts", &Given { line, range, left });
            }
            number += 1;
        });
    }

    /// Small drawings as `compare layout` has them, evenly chosen.
    fn small_sheets(&mut self, cuts: usize) {
        let total = small::count();
        let step = SMALL_STEP.max(total.div_ceil(cuts));
        println!("small drawings in all: {total}, of which one in {step}");
        small::evenly(step, |sheet| self.sheet("small drawings", sheet));
    }

    fn random(&mut self) {
        match self.rng.below(1_000) {
            0..=2 => {
                let sheet = limits::sheet(&mut self.rng);
                self.sheet("drawings at a limit", &sheet);
            }
            3..=6 => {
                let sheet = limits::contradictory(&mut self.rng);
                self.sheet("contradictory sizes", &sheet);
            }
            7..=99 => {
                let sheet = make::sheets::sheet(&mut self.rng);
                let fits = |&n: &usize| n <= usize::from(u16::MAX);
                if sheet.lengths.iter().all(fits) {
                    self.sheet("random and damaged drawings", &sheet);
                }
            }
            _ => {
                let random = lines::Random::new(&mut self.rng);
                let given = Given {
                    line: Line {
                        text: &random.text,
                        line: random.line,
                        byte: random.byte,
                        column: random.column,
                    },
                    range: random.range,
                    left: random.left,
                };
                self.one("random lines", &given);
            }
        }
    }

    /// One cut. The values are the Rust's where the second reading accepts
    /// and the line is UTF-8, which the Rust takes alone.
    fn one(&mut self, kind: &'static str, given: &Given<'_>) {
        let paper = paper::cut::cut(&given.line, given.range, given.left);
        let expected = match (&paper, std::str::from_utf8(given.line.text)) {
            (Err(refusal), _) => CutReply {
                number: refusal.number,
                place: refusal.place,
                ..CutReply::default()
            },
            (Ok(paper), Ok(text)) => {
                let placed = PlacedLine {
                    text,
                    line: given.line.line,
                    byte: given.line.byte,
                    column: given.line.column,
                };
                let rust = grid_table::cut(placed, given.range, given.left);
                let expected = reply(&rust, given.line.byte);
                if expected != of_paper(paper) {
                    self.tally
                        .differ("the oracles disagree", given, paper, &rust);
                }
                if text.get(expected.start..expected.end) != Some(&rust.0) {
                    self.tally.differ("text", given, &expected, &rust);
                }
                expected
            }
            (Ok(paper), Err(_)) => {
                self.tally.kind("accepted lines that are not UTF-8");
                of_paper(paper)
            }
        };
        self.call(kind, given, expected);
    }

    /// Calls the library and compares all fields, the line and its guards.
    fn call(&mut self, kind: &'static str, given: &Given<'_>, expected: CutReply) {
        self.cuts += 1;
        self.tally.count(kind, "cut", expected.number);
        let length = given.line.text.len();
        self.text.lend(length);
        self.text.entries(length).copy_from_slice(given.line.text);
        let got = library::cut(Cutting {
            text: self.text.entries(length),
            column: given.line.column,
            line: given.line.line,
            byte: given.line.byte,
            start: given.range.0,
            end: given.range.1,
            left: given.left,
        });
        if got != expected {
            self.tally.differ("cut", given, &expected, &got);
        }
        if !self.text.guards_kept(length) || self.text.entries(length) != given.line.text {
            self.tally
                .differ("the line was written to", given, &(), &());
        }
    }

    /// Every inner line of every cell of a drawing, cut; and its table.
    fn sheet(&mut self, kind: &'static str, sheet: &Sheet) {
        let Some(answer) = against::answer(sheet) else {
            self.tally.differ("the oracles disagree", sheet, &(), &());
            return;
        };
        let mut built = None;
        let mut cuts = Err(Refusal {
            number: 0,
            place: 0,
        });
        if let Ok(read) = &answer {
            let (numbers, bytes) = lines::places(&mut self.rng, sheet.lines);
            let rust = crate::given::build(sheet, &numbers, &bytes).unwrap();
            self.fragments(kind, sheet, read, &rust, (&numbers, &bytes));
            cuts = Ok(cells::cuts(read, &rust, &bytes));
            built = Some(rust);
        }
        let cell_answer = answer.as_ref().map_err(|&refusal| refusal).and(cuts);
        self.cells
            .sheet(&mut self.rng, &mut self.tally, sheet, &cell_answer);
        match tables::expected(sheet, &answer, built.as_ref()) {
            Some(expected) => {
                self.tables
                    .sheet(&mut self.rng, &mut self.tally, sheet, &expected);
            }
            None => self.tally.differ("the oracles disagree", sheet, &(), &()),
        }
    }

    fn fragments(
        &mut self,
        kind: &'static str,
        sheet: &Sheet,
        read: &Layout,
        built: &Built,
        (numbers, bytes): (&[usize], &[usize]),
    ) {
        for (cell, (_, cuts)) in read.cells.iter().zip(&built.cells) {
            let top = read.rows[cell.row].top;
            if cell.inner.len() != cuts.len() {
                self.tally.differ("inner lines", sheet, cuts, &cell.inner);
                return;
            }
            for (i, &range) in cell.inner.iter().enumerate() {
                let r = top + 1 + i;
                let given = Given {
                    line: Line {
                        text: sheet.line(r),
                        line: numbers[r],
                        byte: bytes[r],
                        column: sheet.columns[r],
                    },
                    range,
                    left: cell.left,
                };
                let expected = reply(&cuts[i], bytes[r]);
                if given.line.text.get(expected.start..expected.end) != Some(cuts[i].0.as_bytes()) {
                    self.tally.differ("text", &given, &expected, &cuts[i]);
                }
                match paper::cut::cut(&given.line, range, cell.left) {
                    Ok(paper) if of_paper(&paper) == expected => {}
                    paper => self
                        .tally
                        .differ("the oracles disagree", &given, &paper, &expected),
                }
                self.call(kind, &given, expected);
            }
        }
    }
}

fn of_paper(cut: &paper::cut::Fragment) -> CutReply {
    CutReply {
        number: 0,
        place: 0,
        start: cut.start,
        end: cut.end,
        line: cut.line,
        byte: cut.byte,
        column: cut.column,
    }
}
