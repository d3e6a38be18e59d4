//! Grid tables, as Pandoc and reStructuredText have them: a table drawn with
//! `+`, `-` and `|`, whose cells can span rows and columns. This crate has
//! comrak's names for them, over a library of proved functions,
//! `libgridtable.a`.
//!
//! ```
//! use gridtable::{Line, Table};
//!
//! let text = "\
//! +------+------+
//! |Part  |Price |
//! +======+======+
//! |Belt  | 18.50|
//! +------+------+
//! ";
//! let lines: Vec<Line> = text.lines().map(Line::from).collect();
//! let table = Table::read(&lines)?;
//! assert_eq!(table.cells[2].lines, [b"Belt"]);
//! print!("{}", table.redraw(0)?);
//! # Ok::<(), gridtable::Refusal>(())
//! ```
//!
//! What a call accepts and what it answers are proved of the library's
//! functions; `docs/PROMISES.md` of the project says what in detail. The crate
//! passes arguments on and copies results out. Three things are its own plain
//! Rust: answering 2 for a length that fits no array, escaping text in
//! [`Table::to_html`], and grouping the cells of a [`Layout`] by their rows.
//!
//! A plain call makes its working space; in a loop over sheets a [`Workspace`]
//! keeps it. No function panics, whatever it is given, unless memory runs out.
#![deny(missing_docs, unsafe_code, unsafe_op_in_unsafe_fn)]

mod arrays;
mod drawing;
mod ends;
#[allow(unsafe_code)]
mod ffi;
mod fragment;
mod layout;
mod line;
mod page;
mod positions;
mod refusal;
mod table;
mod workspace;

pub use drawing::Drawing;
pub use ends::{CellLineEnd, FragmentPlaces, LineEnds};
pub use fragment::{Fragment, cell_fragment};
pub use layout::{Cell, Column, GridTableSection, Layout, Row, TableAlignment};
pub use line::{Line, SourceLine};
pub use page::{Page, Share, share};
pub use positions::{LineColumn, Positions, Sourcepos};
pub use refusal::{Refusal, RefusalKind, SheetRefusal, Step};
pub use table::{Table, TableCell};
pub use workspace::Workspace;

/// The layout of a drawing; refused with 1 to 7.
pub fn layout(lines: &[Line<'_>]) -> Result<Layout, Refusal> {
    Workspace::new().layout(lines)
}

/// The cut lines of cell `k` of a drawing, counted in order of row, then
/// column, as views of the lines given. Their line is the line's index, and
/// their byte is counted in it. Refused as [`layout()`] is, and with 13 where
/// there is no cell `k`.
///
/// Each call reads the drawing. For all cells of one, take [`layout()`] and cut
/// its ranges with [`cell_fragment`].
///
/// ```
/// use gridtable::{Line, cell};
///
/// let text = String::from("+---+\n| a |\n+---+");
/// let lines: Vec<Line> = text.lines().map(Line::from).collect();
/// let fragments = cell(&lines, 0)?;
/// assert_eq!(fragments[0].text, b"a");
/// assert_eq!((fragments[0].line, fragments[0].byte, fragments[0].column), (1, 2, 2));
/// assert_eq!(cell(&lines, 1).unwrap_err().number(), 13);
/// # Ok::<(), gridtable::Refusal>(())
/// ```
pub fn cell<'a>(lines: &[Line<'a>], k: usize) -> Result<Vec<Fragment<'a>>, Refusal> {
    Workspace::new().cell(lines, k)
}

/// From a drawing to its redrawing, the lines at the column `origin`: reading,
/// then redraw, in one call.
pub fn redraw_sheet(lines: &[Line<'_>], origin: u16) -> Result<Drawing, SheetRefusal> {
    Workspace::new().redraw_sheet(lines, origin)
}

/// The positions of a drawing's table, rows and cells in its document; refused
/// as [`layout()`] is.
///
/// ```
/// use gridtable::{Line, LineColumn, SourceLine, positions};
///
/// let lines: Vec<SourceLine> = ["+---+", "| a |", "+---+"]
///     .into_iter()
///     .zip(10..)
///     .map(|(text, number)| SourceLine { line: Line::at(text, 2), number, table_byte: 2 })
///     .collect();
/// let positions = positions(&lines)?;
/// assert_eq!(positions.table.start, LineColumn { line: 10, column: 3 });
/// assert_eq!(positions.cells[0].start, LineColumn { line: 11, column: 4 });
/// assert_eq!(positions.cells[0].end, LineColumn { line: 11, column: 6 });
/// # Ok::<(), gridtable::Refusal>(())
/// ```
pub fn positions(lines: &[SourceLine<'_>]) -> Result<Positions, Refusal> {
    Workspace::new().positions(lines)
}

/// The position of cell `k` alone; refused as [`cell`] is.
pub fn cell_position(lines: &[SourceLine<'_>], k: usize) -> Result<Sourcepos, Refusal> {
    Workspace::new().cell_position(lines, k)
}

/// Whether a line, its end trimmed, is a rule: `+`, then segments of the fill
/// byte, which may have a `:` at each end, each closed by `+`.
///
/// ```
/// use gridtable::is_rule;
///
/// assert!(is_rule(b"+--+:-:+", b'-'));
/// assert!(!is_rule(b"+--+==+", b'-'));
/// ```
pub fn is_rule(text: impl AsRef<[u8]>, fill: u8) -> bool {
    ffi::is_rule(text.as_ref(), fill)
}

/// A line without the spaces and tabs at its end.
///
/// ```
/// assert_eq!(gridtable::trim_end(b"+--+ \t "), b"+--+");
/// ```
pub fn trim_end(text: &[u8]) -> &[u8] {
    &text[..ffi::trim_end(text)]
}
