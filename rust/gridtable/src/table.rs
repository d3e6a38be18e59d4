//! A table: what a drawing reads as, and what is drawn.

use crate::arrays::TableArrays;
use crate::ffi::TableReply;
use crate::layout::{Column, GridTableSection, columns};
use crate::{Drawing, Line, Page, Refusal, Workspace};

/// A table, read from a drawing or made by hand.
///
/// ```
/// use gridtable::{Column, GridTableSection, Table, TableAlignment, TableCell};
///
/// let table = Table {
///     columns: vec![Column { alignment: TableAlignment::None, width: 1 }],
///     sections: vec![GridTableSection::Body],
///     cells: vec![TableCell::new(0, 0, ["ab"])],
/// };
/// let drawing = table.redraw(0)?;
/// assert_eq!(drawing.to_string(), "+---+\n| ab|\n+---+\n");
/// let read = Table::read(&drawing.lines())?;
/// assert_eq!(read.cells, table.cells);
/// # Ok::<(), gridtable::Refusal>(())
/// ```
#[derive(Clone, PartialEq, Eq, Hash, Debug, Default)]
pub struct Table {
    /// Its columns.
    pub columns: Vec<Column>,
    /// The section of each row.
    pub sections: Vec<GridTableSection>,
    /// Its cells, in order of row, then column.
    pub cells: Vec<TableCell>,
}

/// A cell of a table.
#[derive(Clone, PartialEq, Eq, Hash, Debug)]
pub struct TableCell {
    /// The row in which it starts.
    pub row: u16,
    /// The column in which it starts.
    pub column: u16,
    /// Over how many columns it goes.
    pub colspan: u16,
    /// Over how many rows it goes.
    pub rowspan: u16,
    /// Its lines. They are bytes, since redraw answers for those that are not
    /// UTF-8 too (3); of a table that was read they are UTF-8.
    pub lines: Vec<Vec<u8>>,
}

impl TableCell {
    /// A cell over one column and one row.
    pub fn new<L: Into<Vec<u8>>>(
        row: u16,
        column: u16,
        lines: impl IntoIterator<Item = L>,
    ) -> TableCell {
        TableCell {
            row,
            column,
            colspan: 1,
            rowspan: 1,
            lines: lines.into_iter().map(Into::into).collect(),
        }
    }

    /// The same cell over so many columns and rows.
    pub fn spanning(self, colspan: u16, rowspan: u16) -> TableCell {
        TableCell {
            colspan,
            rowspan,
            ..self
        }
    }
}

impl Table {
    /// The table that a drawing reads as; refused with 1 to 7.
    pub fn read(lines: &[Line<'_>]) -> Result<Table, Refusal> {
        Workspace::new().read(lines)
    }

    /// The table's drawing, its lines at the column `origin`; refused with 1, 2,
    /// 3 and 8 to 11. What it draws reads back as the table that went in.
    ///
    /// A line longer than 65,535 bytes and a cell of more than 65,535 lines fit
    /// no array of the archive: the crate itself answers 2, after 1.
    pub fn redraw(&self, origin: u16) -> Result<Drawing, Refusal> {
        Workspace::new().redraw(self, origin)
    }

    /// The table's page, with the shares of its columns where `widths` is true;
    /// refused with 1, 2 and 8. In a cell's lines `&`, `<` and `>` are escaped,
    /// and the lines are parted by `<br />` and a line feed. That is the
    /// crate's own code, not the archive's.
    ///
    /// ```
    /// use gridtable::{Line, Table};
    ///
    /// let table = Table::read(&["+-----+", "| a<b |", "+-----+"].map(Line::from))?;
    /// assert!(table.to_html(false)?.to_string().contains("<td>a&lt;b</td>"));
    /// # Ok::<(), gridtable::Refusal>(())
    /// ```
    pub fn to_html(&self, widths: bool) -> Result<Page, Refusal> {
        Workspace::new().to_html(self, widths)
    }

    /// The table's page with the inner bytes of each cell as the caller gives
    /// them, ready for the page.
    ///
    /// ```
    /// use gridtable::{Line, Table};
    ///
    /// let table = Table::read(&["+---+", "| a |", "+---+"].map(Line::from))?;
    /// let page = table.to_html_with(false, |cell| format!("<p>{} lines</p>", cell.lines.len()))?;
    /// assert!(page.to_string().contains("<td><p>1 lines</p></td>"));
    /// # Ok::<(), gridtable::Refusal>(())
    /// ```
    pub fn to_html_with<B: AsRef<[u8]>>(
        &self,
        widths: bool,
        inner: impl FnMut(&TableCell) -> B,
    ) -> Result<Page, Refusal> {
        Workspace::new().to_html_with(self, widths, inner)
    }

    pub(crate) fn copied(from: &TableArrays, reply: TableReply) -> Table {
        let mut lengths = from.lengths[..reply.lines].iter();
        let mut rest = &from.text[..reply.bytes];
        let mut line = |&length: &u16| {
            let (line, after) = rest.split_at(length.into());
            rest = after;
            line.to_vec()
        };
        let sections = from.sections[..reply.rows].iter();
        let cells = from.cells[..5 * reply.cells].chunks_exact(5);
        Table {
            columns: columns(&from.columns[..2 * reply.columns]),
            sections: sections.map(|&s| GridTableSection::of(s.into())).collect(),
            cells: cells
                .map(|entry| TableCell {
                    row: entry[0],
                    column: entry[1],
                    colspan: entry[2],
                    rowspan: entry[3],
                    lines: lengths
                        .by_ref()
                        .take(entry[4].into())
                        .map(&mut line)
                        .collect(),
                })
                .collect(),
        }
    }
}
