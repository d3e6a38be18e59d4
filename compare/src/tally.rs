//! What a comparison saw: inputs and calls by kind, answers by call and number,
//! differences.

use std::collections::BTreeMap;
use std::fmt::Debug;
use std::sync::atomic::{AtomicUsize, Ordering};

/// Differences printed in all, each with its input.
const MOST_PRINTED: usize = 20;
static PRINTED: AtomicUsize = AtomicUsize::new(0);

#[derive(Default)]
pub struct Tally {
    pub kinds: BTreeMap<&'static str, usize>,
    pub numbers: BTreeMap<(&'static str, usize), usize>,
    pub differing: BTreeMap<String, usize>,
    pub differences: usize,
}

impl Tally {
    pub fn kind(&mut self, kind: &'static str) {
        *self.kinds.entry(kind).or_default() += 1;
    }

    pub fn count(&mut self, kind: &'static str, call: &'static str, number: usize) {
        self.kind(kind);
        *self.numbers.entry((call, number)).or_default() += 1;
    }

    pub fn differ(&mut self, what: &str, input: &dyn Debug, expected: &dyn Debug, got: &dyn Debug) {
        self.differences += 1;
        *self.differing.entry(what.to_string()).or_default() += 1;
        if PRINTED.fetch_add(1, Ordering::Relaxed) < MOST_PRINTED {
            println!(
                "DIFFERENCE {what}\n  input    {input:?}\n  expected {expected:?}\n  got      {got:?}"
            );
        }
    }

    /// Adds what another part of the same run saw.
    pub fn add(&mut self, other: Tally) {
        for (kind, count) in other.kinds {
            *self.kinds.entry(kind).or_default() += count;
        }
        for (answer, count) in other.numbers {
            *self.numbers.entry(answer).or_default() += count;
        }
        for (what, count) in other.differing {
            *self.differing.entry(what).or_default() += count;
        }
        self.differences += other.differences;
    }

    pub fn print_counts(&self) {
        for (kind, count) in &self.kinds {
            println!("{kind}: {count}");
        }
        for ((call, number), count) in &self.numbers {
            println!("{call} answer {number}: {count}");
        }
    }

    /// True when there was no difference.
    pub fn print_differences(&self) -> bool {
        for (what, count) in &self.differing {
            println!("differing, {what}: {count}");
        }
        println!("differences: {}", self.differences);
        self.differences == 0
    }
}
