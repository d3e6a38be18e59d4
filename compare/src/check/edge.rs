//! The papers' own cases: each answer is the one they name.

use super::Tally;
use crate::make::edge;
use crate::paper::cut::{self, Line};
use crate::paper::layout::{self, Space};
use crate::paper::{ends, listing, page, redraw};

pub fn all(tally: &mut Tally) {
    for (sheet, expected) in edge::sheets() {
        let answer = layout::read(&sheet, Space::ENOUGH);
        let agrees = match (&answer, expected) {
            (Ok(read), Ok(lines)) => listing::listed(read) == lines.replace(';', "\n") + "\n",
            (Err(refusal), Err(named)) => (refusal.number, refusal.place) == named,
            _ => false,
        };
        if !agrees {
            tally.differ("edge sheet", &sheet, &answer, &expected);
        }
    }
    for (table, expected) in edge::tables() {
        let answer = redraw::redraw(&table, 0, redraw::Space::ENOUGH);
        let agrees = match (&answer, expected) {
            (Ok(drawn), Ok(lines)) => *drawn == edge::sheet(lines),
            (Err(refusal), Err(named)) => (refusal.number, refusal.place) == named,
            _ => false,
        };
        if !agrees {
            tally.differ("edge table", &table, &answer, &expected);
        }
    }
    cuts(tally);
    let shares = (page::hundredths(1, 3), page::hundredths(2, 3));
    if shares != (3333, 6667) {
        tally.differ("edge share", &(1, 2), &shares, &());
    }
    let found = ends::find(&[(1, 1, 10), (1, 2, 5)], 1, 7);
    if found != Ok(Some(10)) {
        tally.differ("edge find", &(), &found, &10);
    }
    let moved = ends::remap((1, 1, 1), &[(1, 65_535)]);
    if moved.map_err(|r| r.number) != Err(2) {
        tally.differ("edge remap", &(), &moved, &2);
    }
}

/// Text, column, range, left; then start, byte and column, or a refusal.
type CutCase<'t> = (
    &'t [u8],
    usize,
    (usize, usize),
    usize,
    Result<(usize, usize, usize), usize>,
);

fn cuts(tally: &mut Tally) {
    let cases: [CutCase<'_>; 5] = [
        (b"|\tx|", 2, (1, 3), 0, Ok((2, 2, 4))),
        (b"|\tx|", 1, (1, 3), 0, Ok((1, 1, 3))),
        (b"|   |", 0, (1, 4), 0, Ok((1, 1, 1))),
        (b"|  |", 0, (2, 1), 128, Err(13)),
        (b"\x80", 0, (0, 0), 0, Err(13)),
    ];
    for (text, column, range, left, expected) in cases {
        let line = Line {
            text,
            line: 0,
            byte: 0,
            column,
        };
        let answer = cut::cut(&line, range, left)
            .map(|f| (f.start, f.byte, f.column))
            .map_err(|refusal| refusal.number);
        if answer != expected {
            tally.differ("edge cut", &line, &answer, &expected);
        }
    }
}
