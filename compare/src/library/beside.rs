//! The calls beside the round trip: positions, line ends, shares and the page.

use super::{Drawing, Space};

/// A drawing with the number and the table byte of each line.
#[derive(Clone, Copy)]
pub struct Placed<'a> {
    pub drawing: Drawing<'a>,
    pub numbers: &'a [u32],
    pub table_bytes: &'a [u32],
}

/// Output arrays of the positions call: first line and column, last line and
/// column of each row and of each cell.
pub struct PositionsOutput<'a> {
    pub rows: &'a mut [u32],
    pub cells: &'a mut [u32],
}

/// The table's position, and how many rows and cells were written.
#[repr(C)]
#[derive(Clone, Copy, PartialEq, Eq, Debug, Default)]
pub struct PositionsReply {
    pub number: usize,
    pub place: usize,
    pub start_line: u32,
    pub start_column: u32,
    pub end_line: u32,
    pub end_column: u32,
    pub rows: usize,
    pub cells: usize,
}

/// A cell's position.
#[repr(C)]
#[derive(Clone, Copy, PartialEq, Eq, Debug, Default)]
pub struct CellPositionReply {
    pub number: usize,
    pub place: usize,
    pub start_line: u32,
    pub start_column: u32,
    pub end_line: u32,
    pub end_column: u32,
}

/// A register of line ends that is read: how many it holds, and an array for
/// each of their numbers.
#[derive(Clone, Copy)]
pub struct Register<'a> {
    pub count: usize,
    pub lines: &'a [u32],
    pub starts: &'a [u32],
    pub eols: &'a [u32],
}

/// A register that is added to.
pub struct RegisterMut<'a> {
    pub count: usize,
    pub lines: &'a mut [u32],
    pub starts: &'a mut [u32],
    pub eols: &'a mut [u32],
}

/// Lines and bytes of so many fragments.
#[derive(Clone, Copy)]
pub struct Fragments<'a> {
    pub count: usize,
    pub lines: &'a [u32],
    pub bytes: &'a [u32],
}

/// Line, start and eol.
pub type LineEnd = (u32, u32, u32);

/// How many ends the register holds.
#[repr(C)]
#[derive(Clone, Copy, PartialEq, Eq, Debug, Default)]
pub struct AddReply {
    pub number: usize,
    pub place: usize,
    pub count: usize,
}

/// `found` is 1 and `eol` that of the end, or both are 0.
#[repr(C)]
#[derive(Clone, Copy, PartialEq, Eq, Debug, Default)]
pub struct FindReply {
    pub number: usize,
    pub place: usize,
    pub found: usize,
    pub eol: u32,
}

/// The end as it was moved.
#[repr(C)]
#[derive(Clone, Copy, PartialEq, Eq, Debug, Default)]
pub struct RemapReply {
    pub number: usize,
    pub place: usize,
    pub line: u32,
    pub start: u32,
    pub eol: u32,
}

/// A table for the page: its numbers of columns, rows, cells and inner bytes;
/// alignment and width of each column; each row's section; row, column,
/// colspan, rowspan and number of inner bytes of each cell; the inner bytes.
#[derive(Clone, Copy)]
pub struct PageArrays<'a> {
    pub sizes: [usize; 4],
    pub columns: &'a [u16],
    pub sections: &'a [u8],
    pub cells: &'a [u16],
    pub inner: &'a [u8],
}

/// How many bytes the page has.
#[repr(C)]
#[derive(Clone, Copy, PartialEq, Eq, Debug, Default)]
pub struct PageReply {
    pub number: usize,
    pub place: usize,
    pub bytes: usize,
}

/// A share in hundredths of a percent, and their quotient by 100.
#[repr(C)]
#[derive(Clone, Copy, Debug)]
pub struct ShareReply {
    pub hundredths: u32,
    pub percent: f64,
}

#[cfg(grid_lib)]
pub fn positions(
    placed: Placed<'_>,
    space: Space<'_>,
    starts: &mut [u16],
    output: PositionsOutput<'_>,
) -> PositionsReply {
    let drawing = placed.drawing;
    // SAFETY: each pointer and length come from one slice; the exclusive ones
    // are apart from all others.
    unsafe {
        calls::grid_positions(
            drawing.lines,
            drawing.bytes,
            drawing.lengths.as_ptr(),
            drawing.lengths.len(),
            drawing.columns.as_ptr(),
            drawing.columns.len(),
            drawing.text.as_ptr(),
            drawing.text.len(),
            placed.numbers.as_ptr(),
            placed.numbers.len(),
            placed.table_bytes.as_ptr(),
            placed.table_bytes.len(),
            space.glyphs.as_mut_ptr(),
            space.glyphs.len(),
            space.offsets.as_mut_ptr(),
            space.offsets.len(),
            space.down.as_mut_ptr(),
            space.down.len(),
            space.right.as_mut_ptr(),
            space.right.len(),
            space.rects.as_mut_ptr(),
            space.rects.len(),
            starts.as_mut_ptr(),
            starts.len(),
            output.rows.as_mut_ptr(),
            output.rows.len(),
            output.cells.as_mut_ptr(),
            output.cells.len(),
        )
    }
}

#[cfg(grid_lib)]
pub fn cell_position(
    placed: Placed<'_>,
    space: Space<'_>,
    starts: &mut [u16],
    number: usize,
) -> CellPositionReply {
    let drawing = placed.drawing;
    // SAFETY: as for `positions`.
    unsafe {
        calls::grid_cell_position(
            drawing.lines,
            drawing.bytes,
            drawing.lengths.as_ptr(),
            drawing.lengths.len(),
            drawing.columns.as_ptr(),
            drawing.columns.len(),
            drawing.text.as_ptr(),
            drawing.text.len(),
            placed.numbers.as_ptr(),
            placed.numbers.len(),
            placed.table_bytes.as_ptr(),
            placed.table_bytes.len(),
            space.glyphs.as_mut_ptr(),
            space.glyphs.len(),
            space.offsets.as_mut_ptr(),
            space.offsets.len(),
            space.down.as_mut_ptr(),
            space.down.len(),
            space.right.as_mut_ptr(),
            space.right.len(),
            space.rects.as_mut_ptr(),
            space.rects.len(),
            starts.as_mut_ptr(),
            starts.len(),
            number,
        )
    }
}

#[cfg(grid_lib)]
pub fn add_line_end(register: RegisterMut<'_>, (line, start, eol): LineEnd) -> AddReply {
    // SAFETY: as for `positions`.
    unsafe {
        calls::grid_add_line_end(
            register.count,
            register.lines.as_mut_ptr(),
            register.lines.len(),
            register.starts.as_mut_ptr(),
            register.starts.len(),
            register.eols.as_mut_ptr(),
            register.eols.len(),
            line,
            start,
            eol,
        )
    }
}

#[cfg(grid_lib)]
pub fn find_line_end(register: Register<'_>, (line, column): (u32, u32)) -> FindReply {
    // SAFETY: each pointer and length come from one slice.
    unsafe {
        calls::grid_find_line_end(
            register.count,
            register.lines.as_ptr(),
            register.lines.len(),
            register.starts.as_ptr(),
            register.starts.len(),
            register.eols.as_ptr(),
            register.eols.len(),
            line,
            column,
        )
    }
}

#[cfg(grid_lib)]
pub fn remap_line_end(fragments: Fragments<'_>, (line, start, eol): LineEnd) -> RemapReply {
    // SAFETY: each pointer and length come from one slice.
    unsafe {
        calls::grid_remap_line_end(
            fragments.count,
            fragments.lines.as_ptr(),
            fragments.lines.len(),
            fragments.bytes.as_ptr(),
            fragments.bytes.len(),
            line,
            start,
            eol,
        )
    }
}

#[cfg(grid_lib)]
pub fn page(widths: bool, table: PageArrays<'_>, out: &mut [u8]) -> PageReply {
    let [columns, rows, cells, bytes] = table.sizes;
    // SAFETY: as for `positions`.
    unsafe {
        calls::grid_page(
            widths,
            columns,
            rows,
            cells,
            bytes,
            table.columns.as_ptr(),
            table.columns.len(),
            table.sections.as_ptr(),
            table.sections.len(),
            table.cells.as_ptr(),
            table.cells.len(),
            table.inner.as_ptr(),
            table.inner.len(),
            out.as_mut_ptr(),
            out.len(),
        )
    }
}

#[cfg(grid_lib)]
pub fn share(width: u16, total: u32) -> ShareReply {
    // SAFETY: no pointer is handed over.
    unsafe { calls::grid_share(width, total) }
}

#[cfg(not(grid_lib))]
pub use unlinked::{
    add_line_end, cell_position, find_line_end, page, positions, remap_line_end, share,
};

/// So that the commands compile without the library; they ask first.
#[cfg(not(grid_lib))]
mod unlinked {
    use super::{
        AddReply, CellPositionReply, FindReply, Fragments, LineEnd, PageArrays, PageReply, Placed,
        PositionsOutput, PositionsReply, Register, RegisterMut, RemapReply, ShareReply, Space,
    };

    pub fn positions(
        _: Placed<'_>,
        _: Space<'_>,
        _: &mut [u16],
        _: PositionsOutput<'_>,
    ) -> PositionsReply {
        unreachable!()
    }

    pub fn cell_position(
        _: Placed<'_>,
        _: Space<'_>,
        _: &mut [u16],
        _: usize,
    ) -> CellPositionReply {
        unreachable!()
    }

    pub fn add_line_end(_: RegisterMut<'_>, _: LineEnd) -> AddReply {
        unreachable!()
    }

    pub fn find_line_end(_: Register<'_>, _: (u32, u32)) -> FindReply {
        unreachable!()
    }

    pub fn remap_line_end(_: Fragments<'_>, _: LineEnd) -> RemapReply {
        unreachable!()
    }

    pub fn page(_: bool, _: PageArrays<'_>, _: &mut [u8]) -> PageReply {
        unreachable!()
    }

    pub fn share(_: u16, _: u32) -> ShareReply {
        unreachable!()
    }
}

#[cfg(grid_lib)]
mod calls {
    use super::{
        AddReply, CellPositionReply, FindReply, PageReply, PositionsReply, RemapReply, ShareReply,
    };

    unsafe extern "C" {
        /// A slice is a pointer and a length.
        pub fn grid_positions(
            lines: usize,
            bytes: usize,
            lengths: *const u16,
            lengths_len: usize,
            columns: *const u16,
            columns_len: usize,
            text: *const u8,
            text_len: usize,
            numbers: *const u32,
            numbers_len: usize,
            table_bytes: *const u32,
            table_bytes_len: usize,
            glyphs: *mut u8,
            glyphs_len: usize,
            offsets: *mut u16,
            offsets_len: usize,
            down: *mut u8,
            down_len: usize,
            right: *mut u8,
            right_len: usize,
            rects: *mut u8,
            rects_len: usize,
            starts: *mut u16,
            starts_len: usize,
            row_positions: *mut u32,
            row_positions_len: usize,
            cell_positions: *mut u32,
            cell_positions_len: usize,
        ) -> PositionsReply;

        pub fn grid_cell_position(
            lines: usize,
            bytes: usize,
            lengths: *const u16,
            lengths_len: usize,
            columns: *const u16,
            columns_len: usize,
            text: *const u8,
            text_len: usize,
            numbers: *const u32,
            numbers_len: usize,
            table_bytes: *const u32,
            table_bytes_len: usize,
            glyphs: *mut u8,
            glyphs_len: usize,
            offsets: *mut u16,
            offsets_len: usize,
            down: *mut u8,
            down_len: usize,
            right: *mut u8,
            right_len: usize,
            rects: *mut u8,
            rects_len: usize,
            starts: *mut u16,
            starts_len: usize,
            k: usize,
        ) -> CellPositionReply;

        pub fn grid_add_line_end(
            count: usize,
            lines: *mut u32,
            lines_len: usize,
            starts: *mut u32,
            starts_len: usize,
            eols: *mut u32,
            eols_len: usize,
            line: u32,
            start: u32,
            eol: u32,
        ) -> AddReply;

        pub fn grid_find_line_end(
            count: usize,
            lines: *const u32,
            lines_len: usize,
            starts: *const u32,
            starts_len: usize,
            eols: *const u32,
            eols_len: usize,
            line: u32,
            column: u32,
        ) -> FindReply;

        pub fn grid_remap_line_end(
            count: usize,
            lines: *const u32,
            lines_len: usize,
            bytes: *const u32,
            bytes_len: usize,
            line: u32,
            start: u32,
            eol: u32,
        ) -> RemapReply;

        pub fn grid_page(
            widths: bool,
            columns: usize,
            rows: usize,
            cells: usize,
            bytes: usize,
            cols: *const u16,
            cols_len: usize,
            sections: *const u8,
            sections_len: usize,
            cell_numbers: *const u16,
            cell_numbers_len: usize,
            inner: *const u8,
            inner_len: usize,
            out: *mut u8,
            out_len: usize,
        ) -> PageReply;

        pub fn grid_share(width: u16, total: u32) -> ShareReply;
    }
}
