//! What the calls on whole drawings are lent: inputs and working space, each
//! array between guards.

use crate::against::guarded::{GUARD, Guarded, WIDE_GUARD, put_numbers, same_numbers};
use crate::library::{Drawing, RECT_SPACE, SLOT_SPACE, START_SPACE, Space};
use crate::paper::sheet::Sheet;

/// The lengths needed: glyphs, offsets, down, right, rects, starts.
pub const WORKING: [usize; 6] = [
    SLOT_SPACE,
    SLOT_SPACE,
    SLOT_SPACE,
    SLOT_SPACE,
    RECT_SPACE,
    START_SPACE,
];
const NAMES: [&str; 6] = ["glyphs", "offsets", "down", "right", "rects", "starts"];

pub struct Inputs {
    lengths: Guarded<u16>,
    columns: Guarded<u16>,
    text: Guarded<u8>,
}

impl Inputs {
    pub fn new() -> Inputs {
        Inputs {
            lengths: Guarded::new(WIDE_GUARD),
            columns: Guarded::new(WIDE_GUARD),
            text: Guarded::new(GUARD),
        }
    }

    pub fn drawing(&mut self, sheet: &Sheet) -> Drawing<'_> {
        put_numbers(&mut self.lengths, &sheet.lengths);
        put_numbers(&mut self.columns, &sheet.columns);
        self.text.put(&sheet.text);
        Drawing {
            lines: sheet.lines,
            bytes: sheet.bytes,
            lengths: self.lengths.entries(sheet.lengths.len()),
            columns: self.columns.entries(sheet.columns.len()),
            text: self.text.entries(sheet.text.len()),
        }
    }

    /// The first array that is not as it was.
    pub fn changed(&mut self, sheet: &Sheet) -> Option<&'static str> {
        if !same_numbers(&mut self.lengths, &sheet.lengths) {
            return Some("lengths");
        }
        if !same_numbers(&mut self.columns, &sheet.columns) {
            return Some("line columns");
        }
        (!self.text.holds(&sheet.text)).then_some("text")
    }
}

pub struct Working {
    /// glyphs, down, right, rects; offsets, starts.
    narrow: [Guarded<u8>; 4],
    wide: [Guarded<u16>; 2],
}

impl Working {
    pub fn new() -> Working {
        Working {
            narrow: [(); 4].map(|()| Guarded::new(GUARD)),
            wide: [(); 2].map(|()| Guarded::new(WIDE_GUARD)),
        }
    }

    /// Arrays of these lengths, which hold what the call before left there.
    pub fn lend(&mut self, lengths: [usize; 6]) -> (Space<'_>, &mut [u16]) {
        let [glyphs, offsets, down, right, rects, starts] = lengths;
        let [a, b, c, d] = &mut self.narrow;
        let [e, f] = &mut self.wide;
        a.lend(glyphs);
        b.lend(down);
        c.lend(right);
        d.lend(rects);
        e.lend(offsets);
        f.lend(starts);
        let space = Space {
            glyphs: a.entries(glyphs),
            offsets: e.entries(offsets),
            down: b.entries(down),
            right: c.entries(right),
            rects: d.entries(rects),
        };
        (space, f.entries(starts))
    }

    /// The first array whose guards were not kept.
    pub fn changed(&self, lengths: [usize; 6]) -> Option<&'static str> {
        let [glyphs, offsets, down, right, rects, starts] = lengths;
        let kept = [
            self.narrow[0].guards_kept(glyphs),
            self.wide[0].guards_kept(offsets),
            self.narrow[1].guards_kept(down),
            self.narrow[2].guards_kept(right),
            self.narrow[3].guards_kept(rects),
            self.wide[1].guards_kept(starts),
        ];
        kept.iter().position(|&kept| !kept).map(|i| NAMES[i])
    }
}

/// An output array filled with a value, and then what it must hold.
pub fn fill<T: Copy + PartialEq>(array: &mut Guarded<T>, length: usize, with: T) {
    array.lend(length);
    array.entries(length).fill(with);
}

/// Whether the array holds the result, and past it what it held before.
pub fn written<T: Copy + PartialEq>(
    array: &mut Guarded<T>,
    length: usize,
    result: &[T],
    filling: T,
) -> bool {
    let kept = array.guards_kept(length);
    let (start, rest) = array.entries(length).split_at(result.len());
    kept && start == result && rest.iter().all(|&e| e == filling)
}
