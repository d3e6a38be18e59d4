//! Buffers between guard entries, and what a call did to them.

use crate::library::{self, Drawing, LayoutReply, Output, Space};
use crate::paper::sheet::Sheet;

/// Guard entries on each side.
const GUARDS: usize = 16;
pub const GUARD: u8 = 0xA5;
pub const WIDE_GUARD: u16 = 0xA5C3;
pub const WIDEST_GUARD: u32 = 0xA5C3_69B7;

/// Lengths of the working space (glyphs, offsets, down, right, rects) and of
/// the output arrays (columns, rows, cells, ranges).
#[derive(Clone, Copy, Debug)]
pub struct Lengths {
    pub space: [usize; 5],
    pub output: [usize; 4],
}

/// Entries between guards.
pub struct Guarded<T> {
    whole: Vec<T>,
    guard: T,
}

impl<T: Copy + PartialEq> Guarded<T> {
    pub fn new(guard: T) -> Guarded<T> {
        Guarded {
            whole: vec![guard; 2 * GUARDS],
            guard,
        }
    }

    /// Room for `length` entries. What stood there stays.
    pub fn lend(&mut self, length: usize) {
        let end = GUARDS + length;
        if self.whole.len() < end + GUARDS {
            self.whole.resize(end + GUARDS, self.guard);
        }
        self.whole[..GUARDS].fill(self.guard);
        self.whole[end..end + GUARDS].fill(self.guard);
    }

    pub fn entries(&mut self, length: usize) -> &mut [T] {
        &mut self.whole[GUARDS..GUARDS + length]
    }

    /// Lends an input.
    pub fn put(&mut self, entries: &[T]) {
        self.lend(entries.len());
        self.entries(entries.len()).copy_from_slice(entries);
    }

    /// Whether the input is as it was.
    pub fn holds(&mut self, entries: &[T]) -> bool {
        self.guards_kept(entries.len()) && self.entries(entries.len()) == entries
    }

    pub fn guards_kept(&self, length: usize) -> bool {
        let kept = |entries: &[T]| entries.iter().all(|&e| e == self.guard);
        let end = GUARDS + length;
        kept(&self.whole[..GUARDS]) && kept(&self.whole[end..end + GUARDS])
    }
}

const SPACE_NAMES: [&str; 5] = ["glyphs", "offsets", "down", "right", "rects"];
const OUTPUT_NAMES: [&str; 4] = ["columns", "rows", "cells", "ranges"];

pub struct Buffers {
    lengths: Guarded<u16>,
    columns: Guarded<u16>,
    text: Guarded<u8>,
    glyphs: Guarded<u8>,
    offsets: Guarded<u16>,
    down: Guarded<u8>,
    right: Guarded<u8>,
    rects: Guarded<u8>,
    output: [Guarded<u16>; 4],
    /// What the output arrays hold before the call: another value each time.
    filling: u16,
}

impl Buffers {
    pub fn new() -> Buffers {
        let narrow = || Guarded::new(GUARD);
        let wide = || Guarded::new(WIDE_GUARD);
        Buffers {
            lengths: wide(),
            columns: wide(),
            text: narrow(),
            glyphs: narrow(),
            offsets: wide(),
            down: narrow(),
            right: narrow(),
            rects: narrow(),
            output: [wide(), wide(), wide(), wide()],
            filling: 0,
        }
    }

    /// Calls the library with arrays of these lengths.
    pub fn call(&mut self, sheet: &Sheet, lengths: Lengths) -> LayoutReply {
        put_numbers(&mut self.lengths, &sheet.lengths);
        put_numbers(&mut self.columns, &sheet.columns);
        self.text.put(&sheet.text);

        let [glyphs, offsets, down, right, rects] = lengths.space;
        self.glyphs.lend(glyphs);
        self.offsets.lend(offsets);
        self.down.lend(down);
        self.right.lend(right);
        self.rects.lend(rects);
        self.filling = self.filling.wrapping_add(0x3D1);
        for (array, length) in self.output.iter_mut().zip(lengths.output) {
            array.lend(length);
            array.entries(length).fill(self.filling);
        }

        let drawing = Drawing {
            lines: sheet.lines,
            bytes: sheet.bytes,
            lengths: self.lengths.entries(sheet.lengths.len()),
            columns: self.columns.entries(sheet.columns.len()),
            text: self.text.entries(sheet.text.len()),
        };
        let space = Space {
            glyphs: self.glyphs.entries(glyphs),
            offsets: self.offsets.entries(offsets),
            down: self.down.entries(down),
            right: self.right.entries(right),
            rects: self.rects.entries(rects),
        };
        let [a, b, c, d] = &mut self.output;
        let output = Output {
            columns: a.entries(lengths.output[0]),
            rows: b.entries(lengths.output[1]),
            cells: c.entries(lengths.output[2]),
            ranges: d.entries(lengths.output[3]),
        };
        library::layout(drawing, space, output)
    }

    /// The first buffer that is not as it must be after the call: inputs as
    /// they were, outputs with what is written and as they were past it, all
    /// guards kept.
    pub fn changed(
        &mut self,
        sheet: &Sheet,
        lengths: Lengths,
        written: &[Vec<u16>; 4],
    ) -> Option<&'static str> {
        if !same_numbers(&mut self.lengths, &sheet.lengths) {
            return Some("lengths");
        }
        if !same_numbers(&mut self.columns, &sheet.columns) {
            return Some("line columns");
        }
        if !self.text.holds(&sheet.text) {
            return Some("text");
        }
        let [glyphs, offsets, down, right, rects] = lengths.space;
        let kept = [
            self.glyphs.guards_kept(glyphs),
            self.offsets.guards_kept(offsets),
            self.down.guards_kept(down),
            self.right.guards_kept(right),
            self.rects.guards_kept(rects),
        ];
        if let Some(i) = kept.iter().position(|&kept| !kept) {
            return Some(SPACE_NAMES[i]);
        }
        for (i, array) in self.output.iter_mut().enumerate() {
            let length = lengths.output[i];
            let kept = array.guards_kept(length);
            let (result, rest) = array.entries(length).split_at(written[i].len());
            if !kept || result != written[i] || rest.iter().any(|&e| e != self.filling) {
                return Some(OUTPUT_NAMES[i]);
            }
        }
        None
    }
}

pub fn put_numbers(array: &mut Guarded<u16>, numbers: &[usize]) {
    array.lend(numbers.len());
    for (entry, &number) in array.entries(numbers.len()).iter_mut().zip(numbers) {
        *entry = u16::try_from(number).unwrap();
    }
}

pub fn same_numbers(array: &mut Guarded<u16>, numbers: &[usize]) -> bool {
    let entries = array.entries(numbers.len()).iter();
    entries.map(|&e| usize::from(e)).eq(numbers.iter().copied()) && array.guards_kept(numbers.len())
}
