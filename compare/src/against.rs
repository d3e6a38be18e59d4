//! `compare layout`: the library's layout call held against the Rust and the
//! second reading, each buffer between guards.

pub mod guarded;
pub mod limits;
pub mod small;

use std::collections::BTreeMap;

use crate::given;
use crate::library::{LayoutReply, RECT_SPACE, SLOT_SPACE};
use crate::make::{self, Rng};
use crate::paper::layout::{self, Layout, Space};
use crate::paper::sheet::Sheet;
use crate::paper::{self, Answer, Refusal, refuse};
use guarded::{Buffers, Lengths};

pub const SEED: u64 = 1;
pub const CALLS: usize = 10_000_000;

/// True when no difference was found.
pub fn run(seed: u64, calls: usize) -> bool {
    let mut run = Run {
        rng: Rng::new(seed),
        buffers: Buffers::new(),
        kinds: BTreeMap::new(),
        numbers: BTreeMap::new(),
        calls: 0,
        differences: 0,
    };
    run.all_small(calls);
    for (sheet, _) in make::edge::sheets() {
        run.sheet("cases of document 01", &sheet);
    }
    while run.calls < calls {
        run.random();
    }
    for (kind, count) in &run.kinds {
        println!("{kind}: {count}");
    }
    for (number, count) in &run.numbers {
        println!("answer {number}: {count}");
    }
    println!("calls: {}", run.calls);
    println!("differences: {}", run.differences);
    run.differences == 0
}

struct Run {
    rng: Rng,
    buffers: Buffers,
    kinds: BTreeMap<&'static str, usize>,
    numbers: BTreeMap<usize, usize>,
    calls: usize,
    differences: usize,
}

/// Both oracles on one sheet, with space enough. None where they disagree.
pub fn answer(sheet: &Sheet) -> Option<Answer<Layout>> {
    let paper = layout::read(sheet, Space::ENOUGH);
    match &paper {
        Ok(read) => {
            // The values compared are the Rust's.
            let rust = given::layout(sheet)?;
            (rust == *read).then_some(Ok(rust))
        }
        // The Rust knows no limits and takes only UTF-8.
        Err(refusal) if matches!(refusal.number, 4..=7) => match given::layout(sheet) {
            None => Some(paper),
            Some(rust) => {
                let many = refusal.number == 7 && rust.cells.len() > paper::limits::CELLS;
                many.then_some(paper)
            }
        },
        Err(_) => Some(paper),
    }
}

/// What the call writes to each output array.
fn arrays(read: &Layout) -> [Vec<u16>; 4] {
    let entry = |number: usize| u16::try_from(number).unwrap();
    read.arrays().map(|a| a.into_iter().map(entry).collect())
}

fn reply(answer: &Answer<Layout>) -> LayoutReply {
    match answer {
        Ok(read) => {
            let [width, columns, rows, cells, ranges] = read.sizes();
            LayoutReply {
                number: 0,
                place: 0,
                width,
                columns,
                rows,
                cells,
                ranges,
            }
        }
        Err(refusal) => LayoutReply {
            number: refusal.number,
            place: refusal.place,
            ..LayoutReply::default()
        },
    }
}

impl Run {
    /// All small drawings, or evenly chosen ones so that they are at most
    /// half of the calls.
    fn all_small(&mut self, calls: usize) {
        let total = small::count();
        let step = (2 * total).div_ceil(calls).max(1);
        println!("small drawings in all: {total}, of which one in {step}");
        small::evenly(step, |sheet| self.sheet("small drawings", sheet));
    }

    fn random(&mut self) {
        match self.rng.below(1_000) {
            0..=29 => {
                let sheet = limits::sheet(&mut self.rng);
                self.sheet("at a limit", &sheet);
            }
            30..=69 => {
                let sheet = limits::contradictory(&mut self.rng);
                self.sheet("contradictory sizes", &sheet);
            }
            _ => {
                let sheet = make::sheets::sheet(&mut self.rng);
                let fits = |&n: &usize| n <= usize::from(u16::MAX);
                if sheet.lengths.iter().all(fits) {
                    self.sheet("random and damaged", &sheet);
                }
            }
        }
    }

    /// The calls on one sheet: with output space enough; with short working
    /// space; and, where it is accepted, with short output arrays.
    fn sheet(&mut self, kind: &'static str, sheet: &Sheet) {
        let Some(answer) = answer(sheet) else {
            self.differ("the oracles disagree", sheet, &"", &"");
            return;
        };
        let written = answer.as_ref().map(arrays).unwrap_or_default();
        let mut lengths = Lengths {
            space: [SLOT_SPACE, SLOT_SPACE, SLOT_SPACE, SLOT_SPACE, RECT_SPACE],
            output: [0; 4],
        };
        let more: &[usize] = match answer {
            Ok(_) => &[0, 0, 1, 2, 5, 40],
            Err(_) => &[0, 3, 20, 60, 200],
        };
        for (length, result) in lengths.output.iter_mut().zip(&written) {
            *length = result.len() + self.rng.pick(more);
        }
        if self.rng.once_in(4) {
            let i = self.rng.below(5);
            lengths.space[i] += self.rng.between(1, 40);
        }
        self.call(kind, sheet, &answer, &written, lengths);

        if self.rng.once_in(8) {
            let mut short = lengths;
            let i = self.rng.below(5);
            let need = if i < 4 { SLOT_SPACE } else { RECT_SPACE };
            short.space[i] = match self.rng.below(4) {
                0 => 0,
                1 => self.rng.below(need),
                _ => need - 1,
            };
            let refused = refuse(13, 0);
            self.call(
                "short working space",
                sheet,
                &refused,
                &[const { vec![] }; 4],
                short,
            );
        }
        if answer.is_ok() {
            for (i, result) in written.iter().enumerate() {
                let need = result.len();
                if need == 0 || !self.rng.once_in(3) {
                    continue;
                }
                let mut short = lengths;
                short.output[i] = match self.rng.below(4) {
                    0 => self.rng.below(need),
                    _ => need - 1,
                };
                let refused = refuse(12, 0);
                self.call(
                    "short outputs",
                    sheet,
                    &refused,
                    &[const { vec![] }; 4],
                    short,
                );
            }
        }
    }

    fn call(
        &mut self,
        kind: &'static str,
        sheet: &Sheet,
        answer: &Answer<Layout>,
        written: &[Vec<u16>; 4],
        lengths: Lengths,
    ) {
        self.calls += 1;
        *self.kinds.entry(kind).or_default() += 1;
        let number = answer.as_ref().err().map_or(0, |r: &Refusal| r.number);
        *self.numbers.entry(number).or_default() += 1;

        let got = self.buffers.call(sheet, lengths);
        let expected = reply(answer);
        if got != expected {
            self.differ("answer", sheet, &expected, &got);
        }
        if let Some(array) = self.buffers.changed(sheet, lengths, written) {
            self.differ(array, sheet, written, &lengths);
        }
    }

    fn differ(
        &mut self,
        what: &str,
        sheet: &Sheet,
        expected: &dyn std::fmt::Debug,
        got: &dyn std::fmt::Debug,
    ) {
        self.differences += 1;
        if self.differences <= 20 {
            println!(
                "DIFFERENCE {what}\n  input    {sheet:?}\n  expected {expected:?}\n  got      {got:?}"
            );
        }
    }
}
