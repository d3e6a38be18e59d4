//! The arrays that the archive is lent, grouped by what they are for, and each
//! as long as the archive says.

use crate::ffi;

/// A drawing: each line's length and column, and the lines back to back.
#[derive(Clone, Copy)]
pub struct Sheet<'a> {
    pub lengths: &'a [u16],
    pub columns: &'a [u16],
    pub text: &'a [u8],
}

/// A drawing with each line's number and table byte.
#[derive(Clone, Copy)]
pub struct Placed<'a> {
    pub sheet: Sheet<'a>,
    pub numbers: &'a [u32],
    pub table_bytes: &'a [u32],
}

/// A table: alignment and width of each column; each row's section; row,
/// column, colspan, rowspan and number of lines of each cell; each line's
/// length, and the lines back to back.
#[derive(Clone, Copy)]
pub struct Table<'a> {
    pub columns: &'a [u16],
    pub sections: &'a [u8],
    pub cells: &'a [u16],
    pub lengths: &'a [u16],
    pub text: &'a [u8],
}

/// A table for the page, with the number of inner bytes for that of lines.
#[derive(Clone, Copy)]
pub struct Page<'a> {
    pub columns: &'a [u16],
    pub sections: &'a [u8],
    pub cells: &'a [u16],
    pub inner: &'a [u8],
}

/// Working space of reading.
pub struct ReadingArrays {
    pub glyphs: Vec<u8>,
    pub offsets: Vec<u16>,
    pub down: Vec<u8>,
    pub right: Vec<u8>,
    pub rects: Vec<u8>,
    pub starts: Vec<u16>,
    pub counts: Vec<u8>,
}

impl ReadingArrays {
    pub fn new() -> ReadingArrays {
        let size = ffi::grid_reading_space();
        ReadingArrays {
            glyphs: vec![0; size.glyphs],
            offsets: vec![0; size.offsets],
            down: vec![0; size.down],
            right: vec![0; size.right],
            rects: vec![0; size.rects],
            starts: vec![0; size.starts],
            counts: vec![0; size.counts],
        }
    }
}

/// Working space of redraw.
pub struct DrawingArrays {
    pub starts: Vec<u16>,
    pub ends: Vec<u16>,
    pub firsts: Vec<u16>,
    pub heights: Vec<u16>,
    pub wides: Vec<u16>,
    pub rects: Vec<u8>,
    pub canvas: Vec<u16>,
}

impl DrawingArrays {
    pub fn new() -> DrawingArrays {
        let size = ffi::grid_drawing_space();
        DrawingArrays {
            starts: vec![0; size.starts],
            ends: vec![0; size.ends],
            firsts: vec![0; size.firsts],
            heights: vec![0; size.heights],
            wides: vec![0; size.wides],
            rects: vec![0; size.rects],
            canvas: vec![0; size.canvas],
        }
    }
}

/// What a layout is written to: columns as in a table; section, top and bottom
/// of each row; row, column, colspan, rowspan and left column of each cell;
/// start and end of each range.
pub struct LayoutArrays {
    pub columns: Vec<u16>,
    pub rows: Vec<u16>,
    pub cells: Vec<u16>,
    pub ranges: Vec<u16>,
}

impl LayoutArrays {
    pub fn new() -> LayoutArrays {
        let size = ffi::grid_layout_room();
        LayoutArrays {
            columns: vec![0; size.columns],
            rows: vec![0; size.rows],
            cells: vec![0; size.cells],
            ranges: vec![0; size.ranges],
        }
    }
}

/// What a table is written to.
pub struct TableArrays {
    pub columns: Vec<u16>,
    pub sections: Vec<u8>,
    pub cells: Vec<u16>,
    pub lengths: Vec<u16>,
    pub text: Vec<u8>,
}

impl TableArrays {
    pub fn new() -> TableArrays {
        let size = ffi::grid_table_room();
        TableArrays {
            columns: vec![0; size.columns],
            sections: vec![0; size.sections],
            cells: vec![0; size.cells],
            lengths: vec![0; size.lengths],
            text: vec![0; size.text],
        }
    }
}

/// What a drawing is written to.
pub struct DrawnArrays {
    pub lengths: Vec<u16>,
    pub columns: Vec<u16>,
    pub text: Vec<u8>,
}

impl DrawnArrays {
    pub fn new() -> DrawnArrays {
        let size = ffi::grid_drawing_room();
        DrawnArrays {
            lengths: vec![0; size.lengths],
            columns: vec![0; size.columns],
            text: vec![0; size.text],
        }
    }
}

/// What positions are written to: line and column of the start, line and
/// column of the end of each row and of each cell.
pub struct PositionsArrays {
    pub rows: Vec<u32>,
    pub cells: Vec<u32>,
}

impl PositionsArrays {
    pub fn new() -> PositionsArrays {
        let size = ffi::grid_positions_room();
        PositionsArrays {
            rows: vec![0; size.rows],
            cells: vec![0; size.cells],
        }
    }
}

/// What a cell's cut lines are written to: line, start, end and column of each.
pub struct CellArrays {
    pub lines: Vec<u16>,
}

impl CellArrays {
    pub fn new() -> CellArrays {
        CellArrays {
            lines: vec![0; ffi::grid_cell_room()],
        }
    }
}

/// The register of line ends: how many it holds, and an array for each of
/// their numbers.
#[derive(Clone)]
pub struct Register {
    pub count: usize,
    pub lines: Vec<u32>,
    pub starts: Vec<u32>,
    pub eols: Vec<u32>,
}

impl Register {
    pub fn new() -> Register {
        let size = ffi::grid_register_room();
        Register {
            count: 0,
            lines: vec![0; size],
            starts: vec![0; size],
            eols: vec![0; size],
        }
    }
}
