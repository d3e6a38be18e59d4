//! What the redraw calls are lent beside a drawing: the table, working space
//! and output arrays, each array between guards.

use super::answers::Expected;
use crate::against::guarded::{GUARD, Guarded, WIDE_GUARD};
use crate::cuts::lent::{fill, written};
use crate::library::{DRAW_SPACE, DrawOutput, DrawSpace, FlatTable, TABLE_SPACE, TableOutput};
use crate::make::Rng;
use crate::paper::flat::Flat;

const SPACE_NAMES: [&str; 7] = [
    "starts", "ends", "firsts", "heights", "wides", "rects", "canvas",
];
const TABLE_NAMES: [&str; 5] = ["columns", "sections", "cells", "lengths", "text"];

fn narrow() -> Guarded<u8> {
    Guarded::new(GUARD)
}

fn wide() -> Guarded<u16> {
    Guarded::new(WIDE_GUARD)
}

/// The arrays of a table: one that is handed in, or the one between reading
/// and redraw.
pub struct TableArrays {
    columns: Guarded<u16>,
    sections: Guarded<u8>,
    cells: Guarded<u16>,
    lengths: Guarded<u16>,
    text: Guarded<u8>,
}

impl TableArrays {
    pub fn new() -> TableArrays {
        TableArrays {
            columns: wide(),
            sections: narrow(),
            cells: wide(),
            lengths: wide(),
            text: narrow(),
        }
    }

    pub fn input(&mut self, flat: &Flat) -> FlatTable<'_> {
        self.columns.put(&flat.columns);
        self.sections.put(&flat.sections);
        self.cells.put(&flat.cells);
        self.lengths.put(&flat.lengths);
        self.text.put(&flat.text);
        FlatTable {
            sizes: flat.sizes,
            columns: self.columns.entries(flat.columns.len()),
            sections: self.sections.entries(flat.sections.len()),
            cells: self.cells.entries(flat.cells.len()),
            lengths: self.lengths.entries(flat.lengths.len()),
            text: self.text.entries(flat.text.len()),
        }
    }

    /// The first array of a table handed in that is not as it was.
    pub fn input_changed(&mut self, flat: &Flat) -> Option<&'static str> {
        let kept = [
            self.columns.holds(&flat.columns),
            self.sections.holds(&flat.sections),
            self.cells.holds(&flat.cells),
            self.lengths.holds(&flat.lengths),
            self.text.holds(&flat.text),
        ];
        kept.iter().position(|&kept| !kept).map(|i| TABLE_NAMES[i])
    }

    /// Arrays of these lengths, which hold what the call before left there.
    pub fn space(&mut self, lengths: [usize; 5]) -> TableOutput<'_> {
        let [columns, sections, cells, line_lengths, text] = lengths;
        self.columns.lend(columns);
        self.sections.lend(sections);
        self.cells.lend(cells);
        self.lengths.lend(line_lengths);
        self.text.lend(text);
        TableOutput {
            columns: self.columns.entries(columns),
            sections: self.sections.entries(sections),
            cells: self.cells.entries(cells),
            lengths: self.lengths.entries(line_lengths),
            text: self.text.entries(text),
        }
    }

    /// The first array whose guards were not kept.
    pub fn space_changed(&self, lengths: [usize; 5]) -> Option<&'static str> {
        let kept = [
            self.columns.guards_kept(lengths[0]),
            self.sections.guards_kept(lengths[1]),
            self.cells.guards_kept(lengths[2]),
            self.lengths.guards_kept(lengths[3]),
            self.text.guards_kept(lengths[4]),
        ];
        kept.iter().position(|&kept| !kept).map(|i| TABLE_NAMES[i])
    }
}

/// Redraw's working space.
pub struct Working {
    starts: Guarded<u16>,
    ends: Guarded<u16>,
    firsts: Guarded<u16>,
    heights: Guarded<u16>,
    wides: Guarded<u16>,
    rects: Guarded<u8>,
    canvas: Guarded<u16>,
}

impl Working {
    pub fn new() -> Working {
        Working {
            starts: wide(),
            ends: wide(),
            firsts: wide(),
            heights: wide(),
            wides: wide(),
            rects: narrow(),
            canvas: wide(),
        }
    }

    /// Arrays of these lengths, which hold what the call before left there.
    pub fn lend(&mut self, lengths: [usize; 7]) -> DrawSpace<'_> {
        let [starts, ends, firsts, heights, wides, rects, canvas] = lengths;
        self.starts.lend(starts);
        self.ends.lend(ends);
        self.firsts.lend(firsts);
        self.heights.lend(heights);
        self.wides.lend(wides);
        self.rects.lend(rects);
        self.canvas.lend(canvas);
        DrawSpace {
            starts: self.starts.entries(starts),
            ends: self.ends.entries(ends),
            firsts: self.firsts.entries(firsts),
            heights: self.heights.entries(heights),
            wides: self.wides.entries(wides),
            rects: self.rects.entries(rects),
            canvas: self.canvas.entries(canvas),
        }
    }

    /// The first array whose guards were not kept.
    pub fn changed(&self, lengths: [usize; 7]) -> Option<&'static str> {
        let kept = [
            self.starts.guards_kept(lengths[0]),
            self.ends.guards_kept(lengths[1]),
            self.firsts.guards_kept(lengths[2]),
            self.heights.guards_kept(lengths[3]),
            self.wides.guards_kept(lengths[4]),
            self.rects.guards_kept(lengths[5]),
            self.canvas.guards_kept(lengths[6]),
        ];
        kept.iter().position(|&kept| !kept).map(|i| SPACE_NAMES[i])
    }
}

/// Output arrays, filled before each call with another value.
pub struct Outputs {
    lengths: Guarded<u16>,
    columns: Guarded<u16>,
    text: Guarded<u8>,
    filling: u16,
}

impl Outputs {
    pub fn new() -> Outputs {
        Outputs {
            lengths: wide(),
            columns: wide(),
            text: narrow(),
            filling: 0,
        }
    }

    pub fn lend(&mut self, lengths: [usize; 3]) -> DrawOutput<'_> {
        self.filling = self.filling.wrapping_add(0x3D1);
        let [line_lengths, columns, text] = lengths;
        fill(&mut self.lengths, line_lengths, self.filling);
        fill(&mut self.columns, columns, self.filling);
        fill(&mut self.text, text, self.filling as u8);
        DrawOutput {
            lengths: self.lengths.entries(line_lengths),
            columns: self.columns.entries(columns),
            text: self.text.entries(text),
        }
    }

    /// The first array that does not hold the result, and past it what it held
    /// before.
    pub fn changed(&mut self, lengths: [usize; 3], expected: &Expected) -> Option<&'static str> {
        let [line_lengths, columns, text] = lengths;
        let wide = self.filling;
        if !written(&mut self.lengths, line_lengths, &expected.lengths, wide) {
            return Some("drawn lengths");
        }
        if !written(&mut self.columns, columns, &expected.columns, wide) {
            return Some("drawn columns");
        }
        if !written(&mut self.text, text, &expected.text, wide as u8) {
            return Some("drawn text");
        }
        None
    }
}

/// Lengths of what both calls are lent.
#[derive(Clone, Copy, Debug)]
pub struct Lengths {
    pub space: [usize; 7],
    pub output: [usize; 3],
}

impl Lengths {
    /// Space enough: exactly, or a little more. A refusal's outputs have any
    /// lengths.
    pub fn enough(rng: &mut Rng, expected: &Expected) -> Lengths {
        let mut lengths = Lengths {
            space: DRAW_SPACE,
            output: expected.output(),
        };
        let more: &[usize] = match expected.reply.number {
            0 => &[0, 0, 1, 2, 5, 40],
            _ => &[0, 3, 20, 60, 200],
        };
        for length in &mut lengths.output {
            *length += rng.pick(more);
        }
        if rng.once_in(4) {
            lengths.space[rng.below(7)] += rng.between(1, 40);
        }
        lengths
    }

    /// One array of working space too short.
    pub fn short_space(mut self, rng: &mut Rng) -> Lengths {
        let i = rng.below(7);
        self.space[i] = rng.shorter(DRAW_SPACE[i]);
        self
    }

    /// One output array shorter than the result.
    pub fn short_output(mut self, rng: &mut Rng, expected: &Expected) -> Lengths {
        let i = rng.below(3);
        self.output[i] = rng.shorter(expected.output()[i]);
        self
    }
}

/// The table between, exactly as long as it must be or longer; or one array of
/// it too short.
pub fn between(rng: &mut Rng, short: bool) -> [usize; 5] {
    let mut lengths = TABLE_SPACE;
    let i = rng.below(5);
    if short {
        lengths[i] = rng.shorter(TABLE_SPACE[i]);
    } else if rng.once_in(4) {
        lengths[i] += rng.between(1, 40);
    }
    lengths
}
