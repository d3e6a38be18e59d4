//! Line ends, registers and fragments.

use super::Rng;
use crate::ends::End;

/// What their numbers are between: a few, many, or those at the limit.
pub struct Numbers {
    least: usize,
    most: usize,
}

impl Numbers {
    pub fn new(rng: &mut Rng) -> Numbers {
        let (low, most) = rng.pick(&[(1, 2), (1, 6), (1, 12), (1, 65_535), (65_530, 65_537)]);
        let least = if rng.once_in(10) { 0 } else { low };
        Numbers { least, most }
    }

    fn number(&self, rng: &mut Rng) -> usize {
        rng.between(self.least, self.most)
    }

    /// An end on one of so many lines, at times backwards.
    pub fn end(&self, rng: &mut Rng, lines: usize) -> End {
        let (a, b) = (self.number(rng), self.number(rng));
        let (start, eol) = if rng.once_in(10) {
            (a, b)
        } else {
            (a.min(b), a.max(b))
        };
        (rng.between(self.least.min(1), lines), start, eol)
    }

    /// A register handed in may hold anything.
    pub fn strays(&self, rng: &mut Rng) -> Vec<End> {
        let count = rng.pick(&[0, 0, 0, 3]);
        let any = |_| {
            let (start, eol) = (rng.between(0, self.most), rng.between(0, self.most));
            (rng.between(0, 2), start, eol)
        };
        (0..count).map(any).collect()
    }

    /// A line and a column to find the end at.
    pub fn asked(&self, rng: &mut Rng) -> (usize, usize) {
        (rng.between(self.least.min(1), 3), self.number(rng))
    }

    /// Lines and bytes of fragments.
    pub fn fragments(&self, rng: &mut Rng) -> [(usize, usize); 3] {
        [(7, rng.between(0, self.most)), (0, 3), (65_536, 0)]
    }
}
