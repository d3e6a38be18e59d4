//! `compare self`: the second reading of document 01 held against the Rust.

mod beside;
mod edge;
mod sheets;
mod tables;

use std::collections::BTreeMap;
use std::fmt::Debug;

use crate::make::Rng;
use crate::paper::{Answer, set};
use unicode_width::UnicodeWidthChar;

/// What was seen: answers by call and number, and differences.
#[derive(Default)]
pub struct Tally {
    counts: BTreeMap<(&'static str, usize), usize>,
    differences: usize,
}

impl Tally {
    /// Counts an answer, acceptance as 0.
    fn count<T>(&mut self, call: &'static str, answer: &Answer<T>) {
        let number = answer.as_ref().err().map_or(0, |refusal| refusal.number);
        *self.counts.entry((call, number)).or_default() += 1;
    }

    /// Prints a difference with its input.
    fn differ(&mut self, what: &str, input: &dyn Debug, paper: &dyn Debug, rust: &dyn Debug) {
        self.differences += 1;
        if self.differences <= 20 {
            println!("DIFFERENCE {what}\n  input {input:?}\n  01    {paper:?}\n  Rust  {rust:?}");
        }
    }
}

/// True when no difference was found.
pub fn run(seed: u64, n: usize) -> bool {
    let mut tally = Tally::default();
    all_characters(&mut tally);
    edge::all(&mut tally);
    let mut rng = Rng::new(seed);
    for _ in 0..n {
        sheets::one(&mut rng, &mut tally);
        tables::one(&mut rng, &mut tally);
        beside::one(&mut rng, &mut tally);
    }
    for ((call, number), count) in &tally.counts {
        println!("{call} {number}: {count}");
    }
    println!("differences: {}", tally.differences);
    tally.differences == 0
}

fn all_characters(tally: &mut Tally) {
    for c in '\0'..=char::MAX {
        let (paper, rust) = (set::fixed_columns(u32::from(c)), c.width());
        if paper != rust {
            tally.differ("width", &c, &paper, &rust);
        }
    }
}
