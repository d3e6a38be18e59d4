//! Characters and lines of text.

use super::Rng;
use crate::set;

/// Signs of drawings, letters, marks, wide characters, tabs.
const MIXED: [char; 24] = [
    ' ', ' ', 'x', 'a', '~', '|', '|', '+', '+', '-', '=', ':', '\t', '\t', '\u{A1}', '\u{E9}',
    '\u{17F}', '\u{301}', '\u{36F}', '\u{3042}', '\u{30FA}', '\u{4E2D}', '\u{D55C}', '\u{FF21}',
];
/// The signs that can take part in a border.
const SIGNS: [char; 8] = ['|', '|', '+', '-', '=', ':', ' ', 'x'];
const PLAIN: [char; 6] = ['a', 'b', 'c', ' ', ' ', '1'];
/// Not in the set.
const OUTSIDE: [char; 8] = [
    '\0',
    '\r',
    '\u{7F}',
    '\u{A0}',
    '\u{AD}',
    '\u{180}',
    '\u{3000}',
    '\u{1F600}',
];
/// Not UTF-8.
pub const BROKEN: [&[u8]; 6] = [
    b"\x80",
    b"\xC3",
    b"\xC0\xAF",
    b"\xE4\xB8",
    b"\xED\xA0\x80",
    b"\xF4\x90\x80\x80",
];

#[derive(Clone, Copy)]
pub enum Kind {
    Plain,
    Signs,
    Mixed,
}

pub fn kind(rng: &mut Rng) -> Kind {
    rng.pick(&[
        Kind::Plain,
        Kind::Signs,
        Kind::Signs,
        Kind::Mixed,
        Kind::Mixed,
    ])
}

pub fn character(rng: &mut Rng, kind: Kind) -> char {
    match kind {
        Kind::Plain => rng.pick(&PLAIN),
        Kind::Signs => rng.pick(&SIGNS),
        Kind::Mixed => rng.pick(&MIXED),
    }
}

pub fn outside(rng: &mut Rng) -> char {
    rng.pick(&OUTSIDE)
}

pub fn line(rng: &mut Rng, kind: Kind, characters: usize) -> String {
    (0..characters).map(|_| character(rng, kind)).collect()
}

/// Text that fills the columns from `column` on exactly.
pub fn filling(rng: &mut Rng, kind: Kind, mut column: usize, columns: usize) -> String {
    let end = column + columns;
    let mut text = String::new();
    while column < end {
        let c = if rng.once_in(3) {
            ' '
        } else {
            character(rng, kind)
        };
        let width = set::columns_at(c, column);
        if column + width <= end {
            text.push(c);
            column += width;
        }
    }
    if matches!(kind, Kind::Mixed) && rng.once_in(8) {
        text.push('\u{301}');
    }
    text
}
