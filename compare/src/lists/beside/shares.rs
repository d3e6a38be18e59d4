//! The cases of shares: every width of small totals, widths of large ones,
//! hundredths at a half, and totals that no columns have.

use crate::beside::shares::{MOST_TOTAL, random, rust_share};
use crate::lists::List;
use crate::make::Rng;
use crate::paper::limits;
use crate::paper::page;

pub fn cases(list: &mut List) {
    for total in 1..=14 {
        for width in 0..=total {
            list.share(width, total);
        }
    }
    for total in [128, 254, 255, 4_096, MOST_TOTAL] {
        for width in [0, 1, 2, 63, limits::WIDTH - 1, limits::WIDTH] {
            list.share(width, total);
        }
    }
    // Half a hundredth, and just below and past it.
    for (width, total) in [
        (1, 20_000),
        (3, 20_000),
        (1, 16),
        (1, 32),
        (5, 64),
        (125, 128),
    ] {
        for total in [total - 1, total, total + 1] {
            list.share(width, total);
        }
    }
    for width in [0, 1, 128, 65_535] {
        for total in [0, 1, 65_535, 65_536, u32::MAX as usize] {
            list.share(width, total);
        }
    }
    let mut rng = Rng::new(17);
    for _ in 0..100 {
        let (width, total) = random(&mut rng);
        list.share(width, total);
    }
}

impl List {
    /// The hundredths, and the bits of the Rust's f64. A width past its total, and
    /// a total of 0, no columns have: these are the second reading's alone.
    fn share(&mut self, width: usize, total: usize) {
        let hundredths = page::hundredths(width, total);
        let percent = page::share(hundredths);
        if let Some(rust) = rust_share(width, total) {
            assert_eq!(rust.to_bits(), percent.to_bits());
        }
        let answer = format!("{hundredths} {:016x}", percent.to_bits());
        self.add(format!("s {width} {total}"), answer);
    }
}
