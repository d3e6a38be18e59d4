//! Lines to cut, ranges of them, and numbers around the limits.

use crate::make::Rng;
use crate::make::text::{self, Kind};
use crate::paper::limits;

/// Blanks, a letter, characters of two and three bytes, a mark, and a byte
/// that stands alone in no UTF-8.
const SIGNS: [&[u8]; 7] = [
    b" ",
    b"\t",
    b"a",
    "\u{E9}".as_bytes(),
    "\u{301}".as_bytes(),
    "\u{4E2D}".as_bytes(),
    b"\x80",
];
const SMALL_COLUMNS: [usize; 5] = [0, 1, 2, 3, 255];
const SMALL_LEFTS: [usize; 4] = [0, 2, 127, 128];
const MOST_SIGNS: usize = 3;

/// All lines of up to three signs with all ranges up to one past the line.
pub fn small(mut each: impl FnMut(&[u8], (usize, usize), usize, usize)) {
    for signs in 0..=MOST_SIGNS {
        for number in 0..SIGNS.len().pow(signs as u32) {
            let mut rest = number;
            let mut line = vec![];
            for _ in 0..signs {
                line.extend(SIGNS[rest % SIGNS.len()]);
                rest /= SIGNS.len();
            }
            for start in 0..=line.len() + 1 {
                for end in 0..=line.len() + 1 {
                    for column in SMALL_COLUMNS {
                        for left in SMALL_LEFTS {
                            each(&line, (start, end), column, left);
                        }
                    }
                }
            }
        }
    }
}

pub fn small_count() -> usize {
    let mut count = 0;
    small(|_, _, _, _| count += 1);
    count
}

/// One cut at random.
pub struct Random {
    pub text: Vec<u8>,
    pub line: usize,
    pub byte: usize,
    pub column: usize,
    pub range: (usize, usize),
    pub left: usize,
}

impl Random {
    pub fn new(rng: &mut Rng) -> Random {
        let text = any_line(rng);
        let range = any_range(rng, &text);
        Random {
            line: any_number(rng),
            byte: any_number(rng),
            column: near_limit(rng, limits::LINE_COLUMN),
            left: near_limit(rng, limits::LEFT),
            text,
            range,
        }
    }
}

fn blanks(rng: &mut Rng) -> &'static str {
    rng.pick(&["", "", " ", "\t", "  ", "\t ", " \t", "\t\t", "   \t  "])
}

/// Blanks, text, blanks; sometimes about 512 bytes, sometimes not UTF-8.
fn any_line(rng: &mut Rng) -> Vec<u8> {
    let mut line = blanks(rng).to_string();
    let kind = match rng.below(4) {
        0 => text::kind(rng),
        _ => Kind::Mixed,
    };
    let characters = rng.between(0, 12);
    line += &text::line(rng, kind, characters);
    if rng.once_in(25) {
        let length = limits::LINE_BYTES - 2 + rng.below(5);
        let sign = rng.pick(&["x", " ", "\t", "\u{301}", "\u{4E2D}", "\u{E9}"]);
        while line.len() + sign.len() <= length {
            line += sign;
        }
        while line.len() < length {
            line.insert(0, rng.pick(&[' ', 'x', '\t']));
        }
    } else {
        line += blanks(rng);
    }
    let mut line = line.into_bytes();
    if rng.once_in(20) {
        let at = rng.below(line.len() + 1);
        let broken = rng.pick(&text::BROKEN);
        line.splice(at..at, broken.iter().copied());
    }
    line
}

/// A place between two characters, most often one before a blank.
fn boundary(rng: &mut Rng, line: &[u8]) -> usize {
    let first = |at: usize| line.get(at).is_none_or(|b| !(0x80..=0xBF).contains(b));
    let blank = |at: usize| line.get(at).is_some_and(|b| b" \t".contains(b));
    let mut at = rng.below(line.len() + 1);
    if rng.once_in(2) {
        at = (at..line.len()).find(|&i| blank(i)).unwrap_or(at);
    }
    while !first(at) {
        at += 1;
    }
    at
}

fn any_range(rng: &mut Rng, line: &[u8]) -> (usize, usize) {
    let length = line.len();
    let (a, b) = (boundary(rng, line), boundary(rng, line));
    let forward = (a.min(b), a.max(b));
    match rng.below(24) {
        0 => (0, length),
        1 => (a, a),
        2 => (a.max(b), a.min(b)),
        3 => (a, length + rng.between(1, 3)),
        4 => (length + rng.between(1, 3), length + rng.between(1, 3)),
        5 => (a, rng.pick(&[usize::MAX, usize::MAX / 2, 65_536])),
        6 => (rng.pick(&[usize::MAX, usize::MAX / 2, 65_536]), b),
        7 => (usize::MAX, usize::MAX),
        8..=10 => {
            // Anywhere, into characters too.
            let (a, b) = (rng.below(length + 1), rng.below(length + 1));
            (a.min(b), a.max(b))
        }
        11..=14 => (a, length),
        _ => forward,
    }
}

/// Up to the limit, or around it, or far past it.
fn near_limit(rng: &mut Rng, limit: usize) -> usize {
    match rng.below(40) {
        0..=1 => limit - 2 + rng.below(5),
        2 => limit,
        3 if rng.once_in(8) => rng.pick(&[65_535, usize::MAX / 2, usize::MAX]),
        _ => rng.below(limit + 1),
    }
}

fn any_number(rng: &mut Rng) -> usize {
    match rng.below(40) {
        0..=1 => limits::REGISTER_NUMBER - 2 + rng.below(5),
        2..=5 => limits::REGISTER_NUMBER,
        6 if rng.once_in(8) => rng.pick(&[1 << 32, usize::MAX - 1, usize::MAX]),
        7..=15 => rng.below(limits::REGISTER_NUMBER + 1),
        _ => rng.below(300),
    }
}

/// Numbers and table bytes for the lines of a drawing.
pub fn places(rng: &mut Rng, lines: usize) -> (Vec<usize>, Vec<usize>) {
    let most = limits::REGISTER_NUMBER;
    let first = rng.pick(&[0, 1, 7, most + 1 - lines]);
    let numbers = (0..lines).map(|r| first + r).collect();
    let bytes = match rng.below(3) {
        0 => vec![0; lines],
        1 => vec![most; lines],
        _ => (0..lines).map(|_| rng.between(0, most)).collect(),
    };
    (numbers, bytes)
}
