//! The limits of document 01.

pub const LINES: usize = 128;
pub const LINE_BYTES: usize = 512;
pub const BYTES: usize = 32_768;
pub const WIDTH: usize = 128;
pub const COLUMNS: usize = 127;
pub const ROWS: usize = 127;
pub const CELLS: usize = 1_024;
pub const TABLE_LINES: usize = 16_384;
pub const LINE_COLUMN: usize = 255;
pub const LEFT: usize = 127;
pub const REGISTER_NUMBER: usize = 65_535;
pub const REGISTER: usize = 1_024;
