//! All drawings over few signs at small sizes.

use crate::paper::sheet::Sheet;

type Signs = &'static [&'static [u8]];

/// A first line, then `lines` lines of `width` signs each: the first and the
/// last from `sides`, the others from `inner`.
struct Family {
    first: &'static [&'static [u8]],
    lines: usize,
    width: usize,
    sides: Signs,
    inner: Signs,
}

/// Borders, blanks, marks, wide characters, bytes that are not UTF-8.
const ALL: Signs = &[
    b"+",
    b"-",
    b"|",
    b"=",
    b":",
    b" ",
    b"\t",
    b"x",
    "\u{301}".as_bytes(),
    "\u{E9}".as_bytes(),
    "\u{4E2D}".as_bytes(),
    b"\x80",
    b"\xE4\xB8",
    b"\x7F",
];
const MIXED: Signs = &[
    b"+",
    b"-",
    b"|",
    b"=",
    b" ",
    b"\t",
    b"x",
    "\u{301}".as_bytes(),
];
const BORDERS: Signs = &[b"+", b"-", b"|"];
const SIDES: Signs = &[b"+", b"|"];
const WITH_TEXT: Signs = &[b"+", b"-", b"|", b"x"];
const WITH_RULES: Signs = &[b"+", b"-", b"|", b"=", b" "];
/// Whole lines, for the order of separators.
const WHOLE: Signs = &[b"+-+", b"+=+", b"| |", b"+:+", b"+++"];
const NO_FIRST: &[&[u8]] = &[];

/// How many there are in all.
pub fn count() -> usize {
    families().iter().map(Family::count).sum()
}

/// One in `step` of all.
pub fn evenly(step: usize, mut each: impl FnMut(&Sheet)) {
    let mut next = 0;
    let mut before = 0;
    for family in families() {
        while next - before < family.count() {
            each(&family.sheet(next - before));
            next += step;
        }
        before += family.count();
    }
}

fn families() -> Vec<Family> {
    let family = |first, lines, width, sides, inner| Family {
        first,
        lines,
        width,
        sides,
        inner,
    };
    let mut families = vec![];
    for width in 0..=4 {
        families.push(family(NO_FIRST, 1, width, ALL, ALL));
        families.push(family(&[b"+-+"], 1, width, ALL, ALL));
    }
    families.push(family(&[b"+-+"], 2, 3, MIXED, MIXED));
    families.push(family(&[b"+-+"], 3, 3, WITH_TEXT, WITH_TEXT));
    families.push(family(&[b"+-+"], 7, 1, WHOLE, WHOLE));
    let rules: &[&[u8]] = &[b"+---+", b"+-+-+", b"+:-:+"];
    families.push(family(rules, 2, 5, SIDES, WITH_RULES));
    families.push(family(&[b"+-+-+"], 3, 5, SIDES, BORDERS));
    families.push(family(&[b"+-+-+-+"], 2, 7, SIDES, BORDERS));
    families
}

impl Family {
    fn line_count(&self) -> usize {
        match self.width {
            0 => 1,
            1 => self.sides.len(),
            width => self.sides.len().pow(2) * self.inner.len().pow(width as u32 - 2),
        }
    }

    fn count(&self) -> usize {
        self.first.len().max(1) * self.line_count().pow(self.lines as u32)
    }

    /// Drawing `number` of the family, at column 0.
    fn sheet(&self, mut number: usize) -> Sheet {
        let mut pick = |signs: &'static [&'static [u8]]| {
            let sign = signs[number % signs.len()];
            number /= signs.len();
            sign
        };
        let mut lines = vec![];
        if !self.first.is_empty() {
            lines.push((pick(self.first).to_vec(), 0));
        }
        for _ in 0..self.lines {
            let mut line = vec![];
            for x in 0..self.width {
                let side = x == 0 || x + 1 == self.width;
                line.extend(pick(if side { self.sides } else { self.inner }));
            }
            lines.push((line, 0));
        }
        Sheet::of(&lines)
    }
}
