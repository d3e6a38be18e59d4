//! `compare beside`: the calls beside the round trip (positions, line ends,
//! shares and the page) held against the Rust and the second reading.

pub mod ends;
pub mod pages;
pub mod positions;
pub mod shares;

use std::thread;

use crate::make::Rng;
use crate::tally::Tally;

pub const SEED: u64 = 1;
pub const N: usize = 1_000_000;

/// Each part has a seed and a thread of its own, so that it does the same on
/// any number of cores.
const PARTS: [fn(Rng, usize) -> Tally; 4] = [positions::run, ends::run, shares::run, pages::run];

/// N drawings, N ends to find, N shares at random beside all small ones, and
/// three pages for each ten. True when no difference was found.
pub fn run(seed: u64, n: usize) -> bool {
    let mut tally = Tally::default();
    thread::scope(|scope| {
        let first = seed.wrapping_mul(PARTS.len() as u64);
        let seeds = (0..).map(|i| first.wrapping_add(i));
        let running: Vec<_> = PARTS
            .iter()
            .zip(seeds)
            .map(|(part, seed)| scope.spawn(move || part(Rng::new(seed), n)))
            .collect();
        for part in running {
            tally.add(part.join().unwrap());
        }
    });
    tally.print_counts();
    let calls: usize = tally.numbers.values().sum();
    println!("calls: {calls}");
    tally.print_differences()
}
