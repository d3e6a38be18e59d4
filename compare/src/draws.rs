//! `compare draw`: the library's redraw calls held against the Rust and the
//! second reading.

pub mod answers;
mod lent;
pub mod limits;
mod sheets;
mod small;
mod tables;

use std::num::NonZero;
use std::sync::Mutex;
use std::sync::atomic::{AtomicUsize, Ordering};
use std::thread;

use crate::against;
use crate::make::{self, Rng, edge, seeking};
use crate::paper::flat::Flat;
use crate::paper::refuse;
use crate::paper::sheet::Sheet;
use crate::paper::table::Table;
use crate::tally::Tally;
use answers::{Answered, Back, Expected};
use sheets::Sheets;
use small::Small;
use tables::Tables;

pub const SEED: u64 = 1;
pub const TABLES: usize = 5_000_000;

/// The tables come in so many shares, each with a seed of its own, so that
/// they are the same on any number of threads.
const SHARES: usize = 64;

/// True when no difference was found.
pub fn run(seed: u64, tables: usize) -> bool {
    let small = Small::new();
    // All small tables, or evenly chosen ones so that they are at most half; the
    // step has no factor in common with the numbers of sections and alignments.
    let mut step = (2 * small.count()).div_ceil(tables).max(1);
    while step.is_multiple_of(2) || step.is_multiple_of(3) {
        step += 1;
    }
    let (count, kept) = (small.count(), small.kept().len());
    println!("small tables in all: {count}, of which one in {step}; {kept} keep the grid rules");
    let next = AtomicUsize::new(0);
    let seen = Mutex::new(Tally::default());
    let total = AtomicUsize::new(0);
    let threads = thread::available_parallelism().map_or(1, NonZero::get);
    thread::scope(|scope| {
        for _ in 0..threads {
            scope.spawn(|| {
                loop {
                    let share = next.fetch_add(1, Ordering::Relaxed);
                    if share >= SHARES {
                        break;
                    }
                    let (tally, done) = Run::new(seed, share).share(&small, step, tables);
                    seen.lock().unwrap().add(tally);
                    total.fetch_add(done, Ordering::Relaxed);
                }
            });
        }
    });
    let tally = seen.into_inner().unwrap();
    tally.print_counts();
    println!("tables and drawings: {}", total.into_inner());
    tally.print_differences()
}

struct Run {
    share: usize,
    rng: Rng,
    tables: Tables,
    sheets: Sheets,
    tally: Tally,
    done: usize,
}

impl Run {
    fn new(seed: u64, share: usize) -> Run {
        let shares = SHARES as u64;
        Run {
            share,
            rng: Rng::new(seed.wrapping_mul(shares).wrapping_add(share as u64)),
            tables: Tables::new(),
            sheets: Sheets::new(),
            tally: Tally::default(),
            done: 0,
        }
    }

    /// This share of all tables: what was seen, and how many they were.
    fn share(mut self, small: &Small, step: usize, tables: usize) -> (Tally, usize) {
        let numbers = (0..small.count()).step_by(step);
        for number in numbers.skip(self.share).step_by(SHARES) {
            self.small("small tables", small, number);
        }
        if self.share == 0 {
            for (table, _) in edge::tables() {
                self.table("cases of document 01", &table, 0);
            }
            for (sheet, _) in edge::sheets() {
                self.sheet("cases of document 01", &sheet, 0);
            }
        }
        while self.done < tables.div_ceil(SHARES) {
            self.random(small);
        }
        (self.tally, self.done)
    }

    fn small(&mut self, kind: &'static str, small: &Small, number: usize) {
        let origin = self.origin();
        let mut table = small.table(number);
        seeking::fill(&mut self.rng, &mut table, origin);
        self.table(kind, &table, origin);
    }

    fn origin(&mut self) -> usize {
        match self.rng.below(4) {
            0 => 0,
            1 => self.rng.pick(&[1, 2, 3, 254, 255]),
            _ => self.rng.below(256),
        }
    }

    fn random(&mut self, small: &Small) {
        let origin = self.origin();
        match self.rng.below(1_000) {
            0..10 => {
                let (mut table, mut origin) = limits::table(&mut self.rng);
                if self.rng.once_in(3) {
                    limits::spoil(&mut self.rng, &mut table, &mut origin);
                }
                self.table("tables at a limit", &table, origin);
            }
            10..50 => {
                let (table, _) = make::tables::table(&mut self.rng);
                let mut flat = Flat::of(&table);
                limits::contradict(&mut self.rng, &mut flat);
                let origin = self.rng.pick(&[origin, origin, 256, usize::MAX]);
                self.flat("tables of contradictory sizes", &flat, origin);
            }
            50..110 => {
                let mut origin = origin;
                let mut table = seeking::table(&mut self.rng, origin);
                for _ in 0..self.rng.between(2, 3) {
                    limits::spoil(&mut self.rng, &mut table, &mut origin);
                }
                self.table("tables with several defects", &table, origin);
            }
            110..280 => {
                let number = self.rng.pick(small.kept());
                self.small("small tables, other texts", small, number);
            }
            280..520 => {
                let table = seeking::table(&mut self.rng, origin);
                self.table("tables that seek column lines", &table, origin);
            }
            520..850 => {
                let (table, given) = make::tables::table(&mut self.rng);
                let origin = if given > 255 { given } else { origin };
                self.table("random and damaged tables", &table, origin);
            }
            _ => self.random_sheet(origin),
        }
    }

    fn random_sheet(&mut self, origin: usize) {
        match self.rng.below(200) {
            0..2 => {
                let sheet = against::limits::sheet(&mut self.rng);
                self.sheet("drawings at a limit", &sheet, origin);
            }
            2..10 => {
                let sheet = against::limits::contradictory(&mut self.rng);
                self.sheet("drawings of contradictory sizes", &sheet, origin);
            }
            10..90 => {
                let column = self.rng.pick(&[0, origin, 3, 255]);
                let sheet = Sheet::of(&seeking::sheet(&mut self.rng, column));
                self.sheet("drawings that seek column lines", &sheet, origin);
            }
            _ => {
                let sheet = make::sheets::sheet(&mut self.rng);
                let fits = |&n: &usize| n <= usize::from(u16::MAX);
                let origin = if self.rng.once_in(50) { 256 } else { origin };
                if sheet.lengths.iter().all(fits) {
                    self.sheet("random and damaged drawings", &sheet, origin);
                }
            }
        }
    }

    fn table(&mut self, kind: &'static str, table: &Table, origin: usize) {
        self.flat(kind, &Flat::of(table), origin);
    }

    /// Counts how the Rust reads its drawing back, where there is one.
    fn read_back(&mut self, expected: &Expected, back: Option<Back>) {
        let Some(back) = back else { return };
        self.tally.kind(back.name());
        if expected.reply.number == 2 {
            self.tally.kind("refused for the drawn size");
        }
    }

    /// The redraw calls on one table.
    fn flat(&mut self, kind: &'static str, flat: &Flat, origin: usize) {
        self.done += 1;
        self.tally.kind(kind);
        let given = tables::Given { flat, origin };
        let agreed = match flat.table() {
            Some(table) => answers::answer(&table, origin),
            None => Ok(Answered {
                answer: refuse(13, 0),
                back: None,
            }),
        };
        match agreed {
            Err(what) => self
                .tally
                .differ("the oracles disagree", &given, &what, &()),
            Ok(Answered { answer, back }) => {
                let expected = Expected::of(&answer);
                self.read_back(&expected, back);
                self.tables
                    .table(&mut self.rng, &mut self.tally, &given, &expected);
            }
        }
    }

    /// The call from a drawing to its redrawing; and the redraw calls on the
    /// table between.
    fn sheet(&mut self, kind: &'static str, sheet: &Sheet, origin: usize) {
        self.done += 1;
        self.tally.kind(kind);
        let given = sheets::Given { sheet, origin };
        match answers::sheet(sheet, origin) {
            Err(what) => self
                .tally
                .differ("the oracles disagree", &given, &what, &()),
            Ok(answered) => {
                let expected = Expected::of(&answered.answer);
                self.sheets.sheet(
                    &mut self.rng,
                    &mut self.tally,
                    &given,
                    (answered.step, &expected),
                );
                if let Some(table) = &answered.table {
                    let flat = &Flat::of(table);
                    let given = tables::Given { flat, origin };
                    self.tables
                        .table(&mut self.rng, &mut self.tally, &given, &expected);
                }
                self.read_back(&expected, answered.back);
            }
        }
    }
}
