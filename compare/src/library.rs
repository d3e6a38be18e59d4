//! The proved library's calls. Linked where `GRID_LIB_DIR` named its folder
//! at the build.
#![cfg_attr(not(grid_lib), allow(dead_code))]

pub mod beside;

use std::io;

/// Lengths of the working space that the layout call needs.
pub const SLOT_SPACE: usize = 16_384;
pub const RECT_SPACE: usize = 4_096;
/// What the table call needs besides: where each line's text starts, and how
/// many lines each cell has.
pub const START_SPACE: usize = 128;
pub const COUNT_SPACE: usize = 1_024;
/// What the redraw call needs: starts, ends, firsts, heights, wides, rects,
/// canvas.
pub const DRAW_SPACE: [usize; 7] = [16_384, 16_384, 1_024, 1_024, 1_024, 4_096, 16_384];
/// The table between reading and redraw: columns, sections, cells, lengths,
/// text.
pub const TABLE_SPACE: [usize; 5] = [254, 127, 5_120, 16_384, 32_768];

/// A drawing as it is handed in.
#[derive(Clone, Copy)]
pub struct Drawing<'a> {
    pub lines: usize,
    pub bytes: usize,
    pub lengths: &'a [u16],
    pub columns: &'a [u16],
    pub text: &'a [u8],
}

/// Working space.
pub struct Space<'a> {
    pub glyphs: &'a mut [u8],
    pub offsets: &'a mut [u16],
    pub down: &'a mut [u8],
    pub right: &'a mut [u8],
    pub rects: &'a mut [u8],
}

/// Output arrays: alignment and width of each column; section, top and bottom
/// of each row; row, column, colspan, rowspan and left column of each cell;
/// start and end of each range.
pub struct Output<'a> {
    pub columns: &'a mut [u16],
    pub rows: &'a mut [u16],
    pub cells: &'a mut [u16],
    pub ranges: &'a mut [u16],
}

/// Number 0 is acceptance; a refusal has 0 for the values.
#[repr(C)]
#[derive(Clone, Copy, PartialEq, Eq, Debug, Default)]
pub struct LayoutReply {
    pub number: usize,
    pub place: usize,
    pub width: usize,
    pub columns: usize,
    pub rows: usize,
    pub cells: usize,
    pub ranges: usize,
}

/// A line's cut text as a range of it, with its line, byte and column.
#[repr(C)]
#[derive(Clone, Copy, PartialEq, Eq, Debug, Default)]
pub struct CutReply {
    pub number: usize,
    pub place: usize,
    pub start: usize,
    pub end: usize,
    pub line: usize,
    pub byte: usize,
    pub column: usize,
}

/// One cut: a line, its column, number and table byte, a range of it and the
/// cell's left column.
#[derive(Clone, Copy)]
pub struct Cutting<'a> {
    pub text: &'a [u8],
    pub column: usize,
    pub line: usize,
    pub byte: usize,
    pub start: usize,
    pub end: usize,
    pub left: usize,
}

/// Working space of the table call beside the layout call's.
pub struct MoreSpace<'a> {
    pub starts: &'a mut [u16],
    pub counts: &'a mut [u8],
}

/// Output arrays of the table call: alignment and width of each column; each
/// row's section; row, column, colspan, rowspan and number of lines of each
/// cell; each line's length, and the lines' text.
pub struct TableOutput<'a> {
    pub columns: &'a mut [u16],
    pub sections: &'a mut [u8],
    pub cells: &'a mut [u16],
    pub lengths: &'a mut [u16],
    pub text: &'a mut [u8],
}

#[repr(C)]
#[derive(Clone, Copy, PartialEq, Eq, Debug, Default)]
pub struct TableReply {
    pub number: usize,
    pub place: usize,
    pub columns: usize,
    pub rows: usize,
    pub cells: usize,
    pub lines: usize,
    pub bytes: usize,
}

/// A table as it is handed in: its numbers of columns, rows, cells, lines and
/// bytes, and arrays as the table call writes them.
#[derive(Clone, Copy)]
pub struct FlatTable<'a> {
    pub sizes: [usize; 5],
    pub columns: &'a [u16],
    pub sections: &'a [u8],
    pub cells: &'a [u16],
    pub lengths: &'a [u16],
    pub text: &'a [u8],
}

/// Working space of the redraw call.
pub struct DrawSpace<'a> {
    pub starts: &'a mut [u16],
    pub ends: &'a mut [u16],
    pub firsts: &'a mut [u16],
    pub heights: &'a mut [u16],
    pub wides: &'a mut [u16],
    pub rects: &'a mut [u8],
    pub canvas: &'a mut [u16],
}

/// Output arrays of the redraw calls: each line's length and column, and the
/// lines' text.
pub struct DrawOutput<'a> {
    pub lengths: &'a mut [u16],
    pub columns: &'a mut [u16],
    pub text: &'a mut [u8],
}

/// How many lines and bytes were drawn.
#[repr(C)]
#[derive(Clone, Copy, PartialEq, Eq, Debug, Default)]
pub struct RedrawReply {
    pub number: usize,
    pub place: usize,
    pub lines: usize,
    pub bytes: usize,
}

/// Step 0 is acceptance, 1 a refusal by reading, 2 one by redraw.
#[repr(C)]
#[derive(Clone, Copy, PartialEq, Eq, Debug, Default)]
pub struct SheetReply {
    pub step: usize,
    pub number: usize,
    pub place: usize,
    pub lines: usize,
    pub bytes: usize,
}

/// How many cut lines were written: line, start, end and column of each.
#[repr(C)]
#[derive(Clone, Copy, PartialEq, Eq, Debug, Default)]
pub struct CellReply {
    pub number: usize,
    pub place: usize,
    pub lines: usize,
}

/// An error that says what to do where the library is not linked.
pub fn linked() -> io::Result<()> {
    if cfg!(grid_lib) {
        return Ok(());
    }
    Err(io::Error::other(
        "built without the proved library: set GRID_LIB_DIR to the folder of libgridtable.a and build again",
    ))
}

#[cfg(grid_lib)]
pub fn layout(drawing: Drawing<'_>, space: Space<'_>, output: Output<'_>) -> LayoutReply {
    // SAFETY: each pointer and length come from one slice; the exclusive ones
    // are apart from all others.
    unsafe {
        calls::grid_layout(
            drawing.lines,
            drawing.bytes,
            drawing.lengths.as_ptr(),
            drawing.lengths.len(),
            drawing.columns.as_ptr(),
            drawing.columns.len(),
            drawing.text.as_ptr(),
            drawing.text.len(),
            space.glyphs.as_mut_ptr(),
            space.glyphs.len(),
            space.offsets.as_mut_ptr(),
            space.offsets.len(),
            space.down.as_mut_ptr(),
            space.down.len(),
            space.right.as_mut_ptr(),
            space.right.len(),
            space.rects.as_mut_ptr(),
            space.rects.len(),
            output.columns.as_mut_ptr(),
            output.columns.len(),
            output.rows.as_mut_ptr(),
            output.rows.len(),
            output.cells.as_mut_ptr(),
            output.cells.len(),
            output.ranges.as_mut_ptr(),
            output.ranges.len(),
        )
    }
}

#[cfg(grid_lib)]
pub fn cut(given: Cutting<'_>) -> CutReply {
    // SAFETY: pointer and length come from one slice.
    unsafe {
        calls::grid_cell_fragment(
            given.text.as_ptr(),
            given.text.len(),
            given.column,
            given.line,
            given.byte,
            given.start,
            given.end,
            given.left,
        )
    }
}

#[cfg(grid_lib)]
pub fn table(
    drawing: Drawing<'_>,
    space: Space<'_>,
    more: MoreSpace<'_>,
    output: TableOutput<'_>,
) -> TableReply {
    // SAFETY: as for `layout`.
    unsafe {
        calls::grid_table(
            drawing.lines,
            drawing.bytes,
            drawing.lengths.as_ptr(),
            drawing.lengths.len(),
            drawing.columns.as_ptr(),
            drawing.columns.len(),
            drawing.text.as_ptr(),
            drawing.text.len(),
            space.glyphs.as_mut_ptr(),
            space.glyphs.len(),
            space.offsets.as_mut_ptr(),
            space.offsets.len(),
            space.down.as_mut_ptr(),
            space.down.len(),
            space.right.as_mut_ptr(),
            space.right.len(),
            space.rects.as_mut_ptr(),
            space.rects.len(),
            more.starts.as_mut_ptr(),
            more.starts.len(),
            more.counts.as_mut_ptr(),
            more.counts.len(),
            output.columns.as_mut_ptr(),
            output.columns.len(),
            output.sections.as_mut_ptr(),
            output.sections.len(),
            output.cells.as_mut_ptr(),
            output.cells.len(),
            output.lengths.as_mut_ptr(),
            output.lengths.len(),
            output.text.as_mut_ptr(),
            output.text.len(),
        )
    }
}

#[cfg(grid_lib)]
pub fn cell(
    drawing: Drawing<'_>,
    space: Space<'_>,
    starts: &mut [u16],
    number: usize,
    out: &mut [u16],
) -> CellReply {
    // SAFETY: as for `layout`.
    unsafe {
        calls::grid_cell(
            drawing.lines,
            drawing.bytes,
            drawing.lengths.as_ptr(),
            drawing.lengths.len(),
            drawing.columns.as_ptr(),
            drawing.columns.len(),
            drawing.text.as_ptr(),
            drawing.text.len(),
            space.glyphs.as_mut_ptr(),
            space.glyphs.len(),
            space.offsets.as_mut_ptr(),
            space.offsets.len(),
            space.down.as_mut_ptr(),
            space.down.len(),
            space.right.as_mut_ptr(),
            space.right.len(),
            space.rects.as_mut_ptr(),
            space.rects.len(),
            starts.as_mut_ptr(),
            starts.len(),
            number,
            out.as_mut_ptr(),
            out.len(),
        )
    }
}

#[cfg(grid_lib)]
pub fn redraw(
    table: FlatTable<'_>,
    origin: usize,
    space: DrawSpace<'_>,
    output: DrawOutput<'_>,
) -> RedrawReply {
    let [columns, rows, cells, lines, bytes] = table.sizes;
    // SAFETY: as for `layout`.
    unsafe {
        calls::grid_redraw(
            origin,
            columns,
            rows,
            cells,
            lines,
            bytes,
            table.columns.as_ptr(),
            table.columns.len(),
            table.sections.as_ptr(),
            table.sections.len(),
            table.cells.as_ptr(),
            table.cells.len(),
            table.lengths.as_ptr(),
            table.lengths.len(),
            table.text.as_ptr(),
            table.text.len(),
            space.starts.as_mut_ptr(),
            space.starts.len(),
            space.ends.as_mut_ptr(),
            space.ends.len(),
            space.firsts.as_mut_ptr(),
            space.firsts.len(),
            space.heights.as_mut_ptr(),
            space.heights.len(),
            space.wides.as_mut_ptr(),
            space.wides.len(),
            space.rects.as_mut_ptr(),
            space.rects.len(),
            space.canvas.as_mut_ptr(),
            space.canvas.len(),
            output.lengths.as_mut_ptr(),
            output.lengths.len(),
            output.columns.as_mut_ptr(),
            output.columns.len(),
            output.text.as_mut_ptr(),
            output.text.len(),
        )
    }
}

#[cfg(grid_lib)]
pub fn redraw_sheet(
    drawing: Drawing<'_>,
    origin: usize,
    reading: (Space<'_>, MoreSpace<'_>),
    between: TableOutput<'_>,
    space: DrawSpace<'_>,
    output: DrawOutput<'_>,
) -> SheetReply {
    let (read, more) = reading;
    // SAFETY: as for `layout`.
    unsafe {
        calls::grid_redraw_sheet(
            origin,
            drawing.lines,
            drawing.bytes,
            drawing.lengths.as_ptr(),
            drawing.lengths.len(),
            drawing.columns.as_ptr(),
            drawing.columns.len(),
            drawing.text.as_ptr(),
            drawing.text.len(),
            read.glyphs.as_mut_ptr(),
            read.glyphs.len(),
            read.offsets.as_mut_ptr(),
            read.offsets.len(),
            read.down.as_mut_ptr(),
            read.down.len(),
            read.right.as_mut_ptr(),
            read.right.len(),
            read.rects.as_mut_ptr(),
            read.rects.len(),
            more.starts.as_mut_ptr(),
            more.starts.len(),
            more.counts.as_mut_ptr(),
            more.counts.len(),
            between.columns.as_mut_ptr(),
            between.columns.len(),
            between.sections.as_mut_ptr(),
            between.sections.len(),
            between.cells.as_mut_ptr(),
            between.cells.len(),
            between.lengths.as_mut_ptr(),
            between.lengths.len(),
            between.text.as_mut_ptr(),
            between.text.len(),
            space.starts.as_mut_ptr(),
            space.starts.len(),
            space.ends.as_mut_ptr(),
            space.ends.len(),
            space.firsts.as_mut_ptr(),
            space.firsts.len(),
            space.heights.as_mut_ptr(),
            space.heights.len(),
            space.wides.as_mut_ptr(),
            space.wides.len(),
            space.rects.as_mut_ptr(),
            space.rects.len(),
            space.canvas.as_mut_ptr(),
            space.canvas.len(),
            output.lengths.as_mut_ptr(),
            output.lengths.len(),
            output.columns.as_mut_ptr(),
            output.columns.len(),
            output.text.as_mut_ptr(),
            output.text.len(),
        )
    }
}

#[cfg(not(grid_lib))]
pub use unlinked::{cell, cut, layout, redraw, redraw_sheet, table};

/// So that the commands compile without the library; they ask first.
#[cfg(not(grid_lib))]
mod unlinked {
    use super::{
        CellReply, CutReply, Cutting, DrawOutput, DrawSpace, Drawing, FlatTable, LayoutReply,
        MoreSpace, Output, RedrawReply, SheetReply, Space, TableOutput, TableReply,
    };

    pub fn layout(_: Drawing<'_>, _: Space<'_>, _: Output<'_>) -> LayoutReply {
        unreachable!()
    }

    pub fn cut(_: Cutting<'_>) -> CutReply {
        unreachable!()
    }

    pub fn table(_: Drawing<'_>, _: Space<'_>, _: MoreSpace<'_>, _: TableOutput<'_>) -> TableReply {
        unreachable!()
    }

    pub fn cell(_: Drawing<'_>, _: Space<'_>, _: &mut [u16], _: usize, _: &mut [u16]) -> CellReply {
        unreachable!()
    }

    pub fn redraw(_: FlatTable<'_>, _: usize, _: DrawSpace<'_>, _: DrawOutput<'_>) -> RedrawReply {
        unreachable!()
    }

    pub fn redraw_sheet(
        _: Drawing<'_>,
        _: usize,
        _: (Space<'_>, MoreSpace<'_>),
        _: TableOutput<'_>,
        _: DrawSpace<'_>,
        _: DrawOutput<'_>,
    ) -> SheetReply {
        unreachable!()
    }
}

#[cfg(grid_lib)]
mod calls {
    use super::{CellReply, CutReply, LayoutReply, RedrawReply, SheetReply, TableReply};

    unsafe extern "C" {
        /// A slice is a pointer and a length.
        pub fn grid_layout(
            lines: usize,
            bytes: usize,
            lengths: *const u16,
            lengths_len: usize,
            columns: *const u16,
            columns_len: usize,
            text: *const u8,
            text_len: usize,
            glyphs: *mut u8,
            glyphs_len: usize,
            offsets: *mut u16,
            offsets_len: usize,
            down: *mut u8,
            down_len: usize,
            right: *mut u8,
            right_len: usize,
            rects: *mut u8,
            rects_len: usize,
            out_columns: *mut u16,
            out_columns_len: usize,
            out_rows: *mut u16,
            out_rows_len: usize,
            out_cells: *mut u16,
            out_cells_len: usize,
            out_ranges: *mut u16,
            out_ranges_len: usize,
        ) -> LayoutReply;

        pub fn grid_cell_fragment(
            text: *const u8,
            text_len: usize,
            column: usize,
            line: usize,
            table_byte: usize,
            start: usize,
            end: usize,
            left: usize,
        ) -> CutReply;

        pub fn grid_table(
            lines: usize,
            bytes: usize,
            lengths: *const u16,
            lengths_len: usize,
            columns: *const u16,
            columns_len: usize,
            text: *const u8,
            text_len: usize,
            glyphs: *mut u8,
            glyphs_len: usize,
            offsets: *mut u16,
            offsets_len: usize,
            down: *mut u8,
            down_len: usize,
            right: *mut u8,
            right_len: usize,
            rects: *mut u8,
            rects_len: usize,
            starts: *mut u16,
            starts_len: usize,
            counts: *mut u8,
            counts_len: usize,
            out_columns: *mut u16,
            out_columns_len: usize,
            out_sections: *mut u8,
            out_sections_len: usize,
            out_cells: *mut u16,
            out_cells_len: usize,
            out_lengths: *mut u16,
            out_lengths_len: usize,
            out_text: *mut u8,
            out_text_len: usize,
        ) -> TableReply;

        pub fn grid_cell(
            lines: usize,
            bytes: usize,
            lengths: *const u16,
            lengths_len: usize,
            columns: *const u16,
            columns_len: usize,
            text: *const u8,
            text_len: usize,
            glyphs: *mut u8,
            glyphs_len: usize,
            offsets: *mut u16,
            offsets_len: usize,
            down: *mut u8,
            down_len: usize,
            right: *mut u8,
            right_len: usize,
            rects: *mut u8,
            rects_len: usize,
            starts: *mut u16,
            starts_len: usize,
            number: usize,
            out: *mut u16,
            out_len: usize,
        ) -> CellReply;

        pub fn grid_redraw(
            origin: usize,
            columns: usize,
            rows: usize,
            cells: usize,
            lines: usize,
            bytes: usize,
            cols: *const u16,
            cols_len: usize,
            sections: *const u8,
            sections_len: usize,
            cell_numbers: *const u16,
            cell_numbers_len: usize,
            lengths: *const u16,
            lengths_len: usize,
            text: *const u8,
            text_len: usize,
            starts: *mut u16,
            starts_len: usize,
            ends: *mut u16,
            ends_len: usize,
            firsts: *mut u16,
            firsts_len: usize,
            heights: *mut u16,
            heights_len: usize,
            wides: *mut u16,
            wides_len: usize,
            rects: *mut u8,
            rects_len: usize,
            canvas: *mut u16,
            canvas_len: usize,
            out_lengths: *mut u16,
            out_lengths_len: usize,
            out_columns: *mut u16,
            out_columns_len: usize,
            out_text: *mut u8,
            out_text_len: usize,
        ) -> RedrawReply;

        pub fn grid_redraw_sheet(
            origin: usize,
            lines: usize,
            bytes: usize,
            lengths: *const u16,
            lengths_len: usize,
            columns: *const u16,
            columns_len: usize,
            text: *const u8,
            text_len: usize,
            glyphs: *mut u8,
            glyphs_len: usize,
            offsets: *mut u16,
            offsets_len: usize,
            down: *mut u8,
            down_len: usize,
            right: *mut u8,
            right_len: usize,
            rects: *mut u8,
            rects_len: usize,
            starts: *mut u16,
            starts_len: usize,
            counts: *mut u8,
            counts_len: usize,
            cols: *mut u16,
            cols_len: usize,
            sections: *mut u8,
            sections_len: usize,
            cells: *mut u16,
            cells_len: usize,
            table_lengths: *mut u16,
            table_lengths_len: usize,
            table_text: *mut u8,
            table_text_len: usize,
            line_starts: *mut u16,
            line_starts_len: usize,
            line_ends: *mut u16,
            line_ends_len: usize,
            firsts: *mut u16,
            firsts_len: usize,
            heights: *mut u16,
            heights_len: usize,
            wides: *mut u16,
            wides_len: usize,
            frames: *mut u8,
            frames_len: usize,
            canvas: *mut u16,
            canvas_len: usize,
            out_lengths: *mut u16,
            out_lengths_len: usize,
            out_columns: *mut u16,
            out_columns_len: usize,
            out_text: *mut u8,
            out_text_len: usize,
        ) -> SheetReply;
    }
}
