//! The archive's calls: their declarations, and a safe function over each. All
//! of the crate's `unsafe` is here, in two places.

use crate::arrays::{
    CellArrays, DrawingArrays, DrawnArrays, LayoutArrays, Page, Placed, PositionsArrays,
    ReadingArrays, Register, Sheet, Table, TableArrays,
};

/// Calls a function of the archive. A slice is passed as pointer and length,
/// both of the one slice named: `read` lends it, `write` lends it exclusively,
/// and `value` passes a number. An exclusive slice stays borrowed until the
/// call has returned, so the compiler refuses a call that names it twice.
macro_rules! call {
    ($call:ident: $($arguments:tt)*) => { call!(@ $call () $($arguments)*) };
    (@ $call:ident ($($passed:tt)*) value $number:expr, $($rest:tt)*) => {{
        let number = $number;
        call!(@ $call ($($passed)* number,) $($rest)*)
    }};
    (@ $call:ident ($($passed:tt)*) read $slice:expr, $($rest:tt)*) => {{
        let slice: &[_] = &$slice[..];
        call!(@ $call ($($passed)* slice.as_ptr(), slice.len(),) $($rest)*)
    }};
    (@ $call:ident ($($passed:tt)*) write $slice:expr, $($rest:tt)*) => {{
        let slice: &mut [_] = &mut $slice[..];
        let (pointer, length) = (slice.as_mut_ptr(), slice.len());
        let answer = call!(@ $call ($($passed)* pointer, length,) $($rest)*);
        let _still_borrowed = &*slice;
        answer
    }};
    (@ $call:ident ($($passed:tt)*)) => {
        // SAFETY: each pointer is valid and aligned for its length, since both
        // come from one slice. One that is written overlaps no other, since its
        // slice is borrowed exclusively until the call has returned. The archive
        // asks for nothing else, and keeps no pointer.
        unsafe { $call($($passed)*) }
    };
}

/// How long each array of a group must be, as the archive says. Working space
/// of reading.
#[repr(C)]
#[derive(Clone, Copy, Debug)]
pub struct ReadingSpace {
    pub glyphs: usize,
    pub offsets: usize,
    pub down: usize,
    pub right: usize,
    pub rects: usize,
    pub starts: usize,
    pub counts: usize,
}

/// Working space of redraw.
#[repr(C)]
#[derive(Clone, Copy, Debug)]
pub struct DrawingSpace {
    pub starts: usize,
    pub ends: usize,
    pub firsts: usize,
    pub heights: usize,
    pub wides: usize,
    pub rects: usize,
    pub canvas: usize,
}

/// What a layout is written to.
#[repr(C)]
#[derive(Clone, Copy, Debug)]
pub struct LayoutRoom {
    pub columns: usize,
    pub rows: usize,
    pub cells: usize,
    pub ranges: usize,
}

/// What a table is written to.
#[repr(C)]
#[derive(Clone, Copy, Debug)]
pub struct TableRoom {
    pub columns: usize,
    pub sections: usize,
    pub cells: usize,
    pub lengths: usize,
    pub text: usize,
}

/// What a drawing is written to.
#[repr(C)]
#[derive(Clone, Copy, Debug)]
pub struct DrawingRoom {
    pub lengths: usize,
    pub columns: usize,
    pub text: usize,
}

/// What positions are written to.
#[repr(C)]
#[derive(Clone, Copy, Debug)]
pub struct PositionsRoom {
    pub rows: usize,
    pub cells: usize,
}

/// In each reply number 0 is acceptance; a refusal has 0 past its place.
#[repr(C)]
#[derive(Clone, Copy, Debug)]
pub struct LayoutReply {
    pub number: usize,
    pub place: usize,
    pub width: usize,
    pub columns: usize,
    pub rows: usize,
    pub cells: usize,
    pub ranges: usize,
}

#[repr(C)]
#[derive(Clone, Copy, Debug)]
pub struct CutReply {
    pub number: usize,
    pub place: usize,
    pub start: usize,
    pub end: usize,
    pub line: usize,
    pub byte: usize,
    pub column: usize,
}

#[repr(C)]
#[derive(Clone, Copy, Debug)]
pub struct TableReply {
    pub number: usize,
    pub place: usize,
    pub columns: usize,
    pub rows: usize,
    pub cells: usize,
    pub lines: usize,
    pub bytes: usize,
}

#[repr(C)]
#[derive(Clone, Copy, Debug)]
pub struct CellReply {
    pub number: usize,
    pub place: usize,
    pub lines: usize,
}

#[repr(C)]
#[derive(Clone, Copy, Debug)]
pub struct RedrawReply {
    pub number: usize,
    pub place: usize,
    pub lines: usize,
    pub bytes: usize,
}

/// Step 1 is reading, 2 redraw.
#[repr(C)]
#[derive(Clone, Copy, Debug)]
pub struct SheetReply {
    pub step: usize,
    pub number: usize,
    pub place: usize,
    pub lines: usize,
    pub bytes: usize,
}

#[repr(C)]
#[derive(Clone, Copy, Debug)]
pub struct PositionsReply {
    pub number: usize,
    pub place: usize,
    pub start_line: u32,
    pub start_column: u32,
    pub end_line: u32,
    pub end_column: u32,
    pub rows: usize,
    pub cells: usize,
}

#[repr(C)]
#[derive(Clone, Copy, Debug)]
pub struct CellPositionReply {
    pub number: usize,
    pub place: usize,
    pub start_line: u32,
    pub start_column: u32,
    pub end_line: u32,
    pub end_column: u32,
}

#[repr(C)]
#[derive(Clone, Copy, Debug)]
pub struct AddReply {
    pub number: usize,
    pub place: usize,
    pub count: usize,
}

#[repr(C)]
#[derive(Clone, Copy, Debug)]
pub struct FindReply {
    pub number: usize,
    pub place: usize,
    pub found: usize,
    pub eol: u32,
}

#[repr(C)]
#[derive(Clone, Copy, Debug)]
pub struct RemapReply {
    pub number: usize,
    pub place: usize,
    pub line: u32,
    pub start: u32,
    pub eol: u32,
}

#[repr(C)]
#[derive(Clone, Copy, Debug)]
pub struct PageReply {
    pub number: usize,
    pub place: usize,
    pub bytes: usize,
}

#[repr(C)]
#[derive(Clone, Copy, Debug)]
pub struct ShareReply {
    pub hundredths: u32,
    pub percent: f64,
}

// SAFETY: the names, the arguments in their order and the answers are those of
// `crates/gridtable/src`; `tests/declarations.rs` compares them. A function
// without a pointer is safe to call.
unsafe extern "C" {
    pub safe fn grid_reading_space() -> ReadingSpace;
    pub safe fn grid_drawing_space() -> DrawingSpace;
    pub safe fn grid_layout_room() -> LayoutRoom;
    pub safe fn grid_table_room() -> TableRoom;
    pub safe fn grid_drawing_room() -> DrawingRoom;
    pub safe fn grid_positions_room() -> PositionsRoom;
    pub safe fn grid_cell_room() -> usize;
    pub safe fn grid_register_room() -> usize;
    fn grid_is_rule(text: *const u8, text_len: usize, fill: u8) -> bool;
    fn grid_trim_end(text: *const u8, text_len: usize) -> usize;
    fn grid_cell(
        lines: usize,
        bytes: usize,
        lengths: *const u16,
        lengths_len: usize,
        columns: *const u16,
        columns_len: usize,
        text: *const u8,
        text_len: usize,
        glyphs: *mut u8,
        glyphs_len: usize,
        offsets: *mut u16,
        offsets_len: usize,
        down: *mut u8,
        down_len: usize,
        right: *mut u8,
        right_len: usize,
        rects: *mut u8,
        rects_len: usize,
        starts: *mut u16,
        starts_len: usize,
        k: usize,
        out: *mut u16,
        out_len: usize,
    ) -> CellReply;
    fn grid_cell_fragment(
        text: *const u8,
        text_len: usize,
        column: usize,
        line: usize,
        table_byte: usize,
        start: usize,
        end: usize,
        left: usize,
    ) -> CutReply;
    fn grid_layout(
        lines: usize,
        bytes: usize,
        lengths: *const u16,
        lengths_len: usize,
        columns: *const u16,
        columns_len: usize,
        text: *const u8,
        text_len: usize,
        glyphs: *mut u8,
        glyphs_len: usize,
        offsets: *mut u16,
        offsets_len: usize,
        down: *mut u8,
        down_len: usize,
        right: *mut u8,
        right_len: usize,
        rects: *mut u8,
        rects_len: usize,
        cols: *mut u16,
        cols_len: usize,
        rows: *mut u16,
        rows_len: usize,
        cells: *mut u16,
        cells_len: usize,
        ranges: *mut u16,
        ranges_len: usize,
    ) -> LayoutReply;
    fn grid_page(
        widths: bool,
        columns: usize,
        rows: usize,
        cells: usize,
        bytes: usize,
        cols: *const u16,
        cols_len: usize,
        sections: *const u8,
        sections_len: usize,
        cell_numbers: *const u16,
        cell_numbers_len: usize,
        inner: *const u8,
        inner_len: usize,
        out: *mut u8,
        out_len: usize,
    ) -> PageReply;
    pub safe fn grid_share(width: u16, total: u32) -> ShareReply;
    fn grid_redraw(
        origin: usize,
        columns: usize,
        rows: usize,
        cells: usize,
        lines: usize,
        bytes: usize,
        cols: *const u16,
        cols_len: usize,
        sections: *const u8,
        sections_len: usize,
        cell_numbers: *const u16,
        cell_numbers_len: usize,
        lengths: *const u16,
        lengths_len: usize,
        text: *const u8,
        text_len: usize,
        starts: *mut u16,
        starts_len: usize,
        ends: *mut u16,
        ends_len: usize,
        firsts: *mut u16,
        firsts_len: usize,
        heights: *mut u16,
        heights_len: usize,
        wides: *mut u16,
        wides_len: usize,
        rects: *mut u8,
        rects_len: usize,
        canvas: *mut u16,
        canvas_len: usize,
        out_lengths: *mut u16,
        out_lengths_len: usize,
        out_columns: *mut u16,
        out_columns_len: usize,
        out_text: *mut u8,
        out_text_len: usize,
    ) -> RedrawReply;
    fn grid_add_line_end(
        count: usize,
        lines: *mut u32,
        lines_len: usize,
        starts: *mut u32,
        starts_len: usize,
        eols: *mut u32,
        eols_len: usize,
        line: u32,
        start: u32,
        eol: u32,
    ) -> AddReply;
    fn grid_find_line_end(
        count: usize,
        lines: *const u32,
        lines_len: usize,
        starts: *const u32,
        starts_len: usize,
        eols: *const u32,
        eols_len: usize,
        line: u32,
        column: u32,
    ) -> FindReply;
    fn grid_remap_line_end(
        count: usize,
        lines: *const u32,
        lines_len: usize,
        bytes: *const u32,
        bytes_len: usize,
        line: u32,
        start: u32,
        eol: u32,
    ) -> RemapReply;
    fn grid_redraw_sheet(
        origin: usize,
        lines: usize,
        bytes: usize,
        lengths: *const u16,
        lengths_len: usize,
        columns: *const u16,
        columns_len: usize,
        text: *const u8,
        text_len: usize,
        glyphs: *mut u8,
        glyphs_len: usize,
        offsets: *mut u16,
        offsets_len: usize,
        down: *mut u8,
        down_len: usize,
        right: *mut u8,
        right_len: usize,
        rects: *mut u8,
        rects_len: usize,
        starts: *mut u16,
        starts_len: usize,
        counts: *mut u8,
        counts_len: usize,
        cols: *mut u16,
        cols_len: usize,
        sections: *mut u8,
        sections_len: usize,
        cells: *mut u16,
        cells_len: usize,
        table_lengths: *mut u16,
        table_lengths_len: usize,
        table_text: *mut u8,
        table_text_len: usize,
        line_starts: *mut u16,
        line_starts_len: usize,
        line_ends: *mut u16,
        line_ends_len: usize,
        firsts: *mut u16,
        firsts_len: usize,
        heights: *mut u16,
        heights_len: usize,
        wides: *mut u16,
        wides_len: usize,
        frames: *mut u8,
        frames_len: usize,
        canvas: *mut u16,
        canvas_len: usize,
        out_lengths: *mut u16,
        out_lengths_len: usize,
        out_columns: *mut u16,
        out_columns_len: usize,
        out_text: *mut u8,
        out_text_len: usize,
    ) -> SheetReply;
    fn grid_positions(
        lines: usize,
        bytes: usize,
        lengths: *const u16,
        lengths_len: usize,
        columns: *const u16,
        columns_len: usize,
        text: *const u8,
        text_len: usize,
        numbers: *const u32,
        numbers_len: usize,
        table_bytes: *const u32,
        table_bytes_len: usize,
        glyphs: *mut u8,
        glyphs_len: usize,
        offsets: *mut u16,
        offsets_len: usize,
        down: *mut u8,
        down_len: usize,
        right: *mut u8,
        right_len: usize,
        rects: *mut u8,
        rects_len: usize,
        starts: *mut u16,
        starts_len: usize,
        row_positions: *mut u32,
        row_positions_len: usize,
        cell_positions: *mut u32,
        cell_positions_len: usize,
    ) -> PositionsReply;
    fn grid_cell_position(
        lines: usize,
        bytes: usize,
        lengths: *const u16,
        lengths_len: usize,
        columns: *const u16,
        columns_len: usize,
        text: *const u8,
        text_len: usize,
        numbers: *const u32,
        numbers_len: usize,
        table_bytes: *const u32,
        table_bytes_len: usize,
        glyphs: *mut u8,
        glyphs_len: usize,
        offsets: *mut u16,
        offsets_len: usize,
        down: *mut u8,
        down_len: usize,
        right: *mut u8,
        right_len: usize,
        rects: *mut u8,
        rects_len: usize,
        starts: *mut u16,
        starts_len: usize,
        k: usize,
    ) -> CellPositionReply;
    fn grid_table(
        lines: usize,
        bytes: usize,
        lengths: *const u16,
        lengths_len: usize,
        columns: *const u16,
        columns_len: usize,
        text: *const u8,
        text_len: usize,
        glyphs: *mut u8,
        glyphs_len: usize,
        offsets: *mut u16,
        offsets_len: usize,
        down: *mut u8,
        down_len: usize,
        right: *mut u8,
        right_len: usize,
        rects: *mut u8,
        rects_len: usize,
        starts: *mut u16,
        starts_len: usize,
        counts: *mut u8,
        counts_len: usize,
        cols: *mut u16,
        cols_len: usize,
        sections: *mut u8,
        sections_len: usize,
        cells: *mut u16,
        cells_len: usize,
        out_lengths: *mut u16,
        out_lengths_len: usize,
        out_text: *mut u8,
        out_text_len: usize,
    ) -> TableReply;
}

pub fn is_rule(text: &[u8], fill: u8) -> bool {
    call!(grid_is_rule: read text, value fill,)
}

pub fn trim_end(text: &[u8]) -> usize {
    call!(grid_trim_end: read text,)
}

pub fn layout(sheet: Sheet<'_>, space: &mut ReadingArrays, out: &mut LayoutArrays) -> LayoutReply {
    call!(grid_layout:
        value sheet.lengths.len(), value sheet.text.len(),
        read sheet.lengths, read sheet.columns, read sheet.text,
        write space.glyphs, write space.offsets, write space.down, write space.right,
        write space.rects,
        write out.columns, write out.rows, write out.cells, write out.ranges,
    )
}

pub fn table(sheet: Sheet<'_>, space: &mut ReadingArrays, out: &mut TableArrays) -> TableReply {
    call!(grid_table:
        value sheet.lengths.len(), value sheet.text.len(),
        read sheet.lengths, read sheet.columns, read sheet.text,
        write space.glyphs, write space.offsets, write space.down, write space.right,
        write space.rects, write space.starts, write space.counts,
        write out.columns, write out.sections, write out.cells, write out.lengths, write out.text,
    )
}

pub fn cell(
    sheet: Sheet<'_>,
    space: &mut ReadingArrays,
    k: usize,
    out: &mut CellArrays,
) -> CellReply {
    call!(grid_cell:
        value sheet.lengths.len(), value sheet.text.len(),
        read sheet.lengths, read sheet.columns, read sheet.text,
        write space.glyphs, write space.offsets, write space.down, write space.right,
        write space.rects, write space.starts,
        value k,
        write out.lines,
    )
}

/// A line to cut, as comrak's `cell_fragment` takes it.
pub struct Cut<'a> {
    pub text: &'a [u8],
    pub column: usize,
    pub line: usize,
    pub table_byte: usize,
    pub start: usize,
    pub end: usize,
    pub left: usize,
}

pub fn cell_fragment(cut: Cut<'_>) -> CutReply {
    call!(grid_cell_fragment:
        read cut.text, value cut.column, value cut.line, value cut.table_byte,
        value cut.start, value cut.end, value cut.left,
    )
}

pub fn redraw(
    table: Table<'_>,
    origin: usize,
    space: &mut DrawingArrays,
    out: &mut DrawnArrays,
) -> RedrawReply {
    call!(grid_redraw:
        value origin,
        value table.columns.len() / 2, value table.sections.len(), value table.cells.len() / 5,
        value table.lengths.len(), value table.text.len(),
        read table.columns, read table.sections, read table.cells, read table.lengths,
        read table.text,
        write space.starts, write space.ends, write space.firsts, write space.heights,
        write space.wides, write space.rects, write space.canvas,
        write out.lengths, write out.columns, write out.text,
    )
}

pub fn redraw_sheet(
    sheet: Sheet<'_>,
    origin: usize,
    reading: &mut ReadingArrays,
    between: &mut TableArrays,
    drawing: &mut DrawingArrays,
    out: &mut DrawnArrays,
) -> SheetReply {
    call!(grid_redraw_sheet:
        value origin,
        value sheet.lengths.len(), value sheet.text.len(),
        read sheet.lengths, read sheet.columns, read sheet.text,
        write reading.glyphs, write reading.offsets, write reading.down, write reading.right,
        write reading.rects, write reading.starts, write reading.counts,
        write between.columns, write between.sections, write between.cells,
        write between.lengths, write between.text,
        write drawing.starts, write drawing.ends, write drawing.firsts, write drawing.heights,
        write drawing.wides, write drawing.rects, write drawing.canvas,
        write out.lengths, write out.columns, write out.text,
    )
}

pub fn positions(
    placed: Placed<'_>,
    space: &mut ReadingArrays,
    out: &mut PositionsArrays,
) -> PositionsReply {
    let sheet = placed.sheet;
    call!(grid_positions:
        value sheet.lengths.len(), value sheet.text.len(),
        read sheet.lengths, read sheet.columns, read sheet.text,
        read placed.numbers, read placed.table_bytes,
        write space.glyphs, write space.offsets, write space.down, write space.right,
        write space.rects, write space.starts,
        write out.rows, write out.cells,
    )
}

pub fn cell_position(placed: Placed<'_>, space: &mut ReadingArrays, k: usize) -> CellPositionReply {
    let sheet = placed.sheet;
    call!(grid_cell_position:
        value sheet.lengths.len(), value sheet.text.len(),
        read sheet.lengths, read sheet.columns, read sheet.text,
        read placed.numbers, read placed.table_bytes,
        write space.glyphs, write space.offsets, write space.down, write space.right,
        write space.rects, write space.starts,
        value k,
    )
}

pub fn page(page: Page<'_>, widths: bool, out: &mut [u8]) -> PageReply {
    call!(grid_page:
        value widths,
        value page.columns.len() / 2, value page.sections.len(), value page.cells.len() / 5,
        value page.inner.len(),
        read page.columns, read page.sections, read page.cells, read page.inner,
        write out,
    )
}

pub fn add_line_end(register: &mut Register, end: [u32; 3]) -> AddReply {
    let [line, start, eol] = end;
    call!(grid_add_line_end:
        value register.count,
        write register.lines, write register.starts, write register.eols,
        value line, value start, value eol,
    )
}

pub fn find_line_end(register: &Register, line: u32, column: u32) -> FindReply {
    call!(grid_find_line_end:
        value register.count,
        read register.lines, read register.starts, read register.eols,
        value line, value column,
    )
}

pub fn remap_line_end(lines: &[u32], bytes: &[u32], end: [u32; 3]) -> RemapReply {
    let [line, start, eol] = end;
    call!(grid_remap_line_end:
        value lines.len(), read lines, read bytes,
        value line, value start, value eol,
    )
}

#[cfg(test)]
mod tests {
    use super::*;

    const SHEET: Sheet<'static> = Sheet {
        lengths: &[3, 3, 3],
        columns: &[0, 0, 0],
        text: b"+-+|a|+-+",
    };

    /// What the archive says of itself is enough, and one entry less is not.
    #[test]
    fn an_array_one_short_is_a_12_or_a_13() {
        let (mut space, mut out) = (ReadingArrays::new(), LayoutArrays::new());
        assert_eq!(layout(SHEET, &mut space, &mut out).number, 0);
        out.ranges.truncate(1);
        assert_eq!(layout(SHEET, &mut space, &mut out).number, 12);
        space.rects.pop();
        assert_eq!(layout(SHEET, &mut space, &mut out).number, 13);

        let (mut space, mut out) = (ReadingArrays::new(), TableArrays::new());
        assert_eq!(table(SHEET, &mut space, &mut out).number, 0);
        out.text.clear();
        assert_eq!(table(SHEET, &mut space, &mut out).number, 12);
        space.counts.pop();
        assert_eq!(table(SHEET, &mut space, &mut out).number, 13);

        let (mut space, mut out) = (ReadingArrays::new(), TableArrays::new());
        let (mut drawing, mut drawn) = (DrawingArrays::new(), DrawnArrays::new());
        let mut call = |drawing: &mut DrawingArrays, drawn: &mut DrawnArrays| {
            let reply = redraw_sheet(SHEET, 0, &mut space, &mut out, drawing, drawn);
            (reply.step, reply.number)
        };
        assert_eq!(call(&mut drawing, &mut drawn), (0, 0));
        drawn.lengths.truncate(2);
        assert_eq!(call(&mut drawing, &mut drawn), (2, 12));
        drawing.canvas.pop();
        assert_eq!(call(&mut drawing, &mut drawn), (1, 13));

        let mut register = Register::new();
        assert_eq!(add_line_end(&mut register, [1, 1, 1]).number, 0);
        register.eols.push(0);
        assert_eq!(add_line_end(&mut register, [1, 1, 1]).number, 13);
    }

    /// A refused call writes nothing, an accepted one nothing past its result.
    #[test]
    fn entries_past_a_result_stay() {
        let (mut space, mut out) = (ReadingArrays::new(), LayoutArrays::new());
        for array in [
            &mut out.columns,
            &mut out.rows,
            &mut out.cells,
            &mut out.ranges,
        ] {
            array.fill(0xABCD);
        }
        let refused = Sheet {
            lengths: &[1],
            columns: &[0],
            text: b"x",
        };
        assert_eq!(layout(refused, &mut space, &mut out).number, 4);
        assert!(out.columns.iter().all(|&entry| entry == 0xABCD));
        let reply = layout(SHEET, &mut space, &mut out);
        assert_eq!(
            (reply.columns, reply.rows, reply.cells, reply.ranges),
            (1, 1, 1, 1)
        );
        assert_eq!(out.columns[..3], [0, 1, 0xABCD]);
        assert_eq!(out.rows[..4], [1, 0, 2, 0xABCD]);
        assert_eq!(out.cells[..6], [0, 0, 1, 1, 0, 0xABCD]);
        assert_eq!(out.ranges[..3], [1, 2, 0xABCD]);
    }
}
