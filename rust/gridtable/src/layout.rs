//! A drawing's layout, by comrak's names.

use std::ops::Range;

use crate::arrays::LayoutArrays;
use crate::ffi::LayoutReply;

/// How a column's cells are aligned.
#[derive(Clone, Copy, PartialEq, Eq, Hash, Debug, Default)]
pub enum TableAlignment {
    /// Not at all.
    #[default]
    None,
    /// To the left.
    Left,
    /// In the middle.
    Center,
    /// To the right.
    Right,
}

impl TableAlignment {
    pub(crate) fn code(self) -> u16 {
        match self {
            TableAlignment::None => 0,
            TableAlignment::Left => 1,
            TableAlignment::Right => 2,
            TableAlignment::Center => 3,
        }
    }

    pub(crate) fn of(code: u16) -> TableAlignment {
        use TableAlignment::{Center, Left, None, Right};
        [None, Left, Right, Center][usize::from(code)]
    }
}

/// The section of a row.
#[derive(Clone, Copy, PartialEq, Eq, Hash, Debug)]
pub enum GridTableSection {
    /// As HTML's `<thead>`.
    Head,
    /// As HTML's `<tbody>`.
    Body,
    /// As HTML's `<tfoot>`.
    Foot,
}

impl GridTableSection {
    pub(crate) fn code(self) -> u8 {
        match self {
            GridTableSection::Head => 0,
            GridTableSection::Body => 1,
            GridTableSection::Foot => 2,
        }
    }

    pub(crate) fn of(code: u16) -> GridTableSection {
        use GridTableSection::{Body, Foot, Head};
        [Head, Body, Foot][usize::from(code)]
    }
}

/// A column of a drawing or of a table.
#[derive(Clone, Copy, PartialEq, Eq, Hash, Debug)]
pub struct Column {
    /// Its alignment.
    pub alignment: TableAlignment,
    /// Its width between the borders; in a table, the declared one, which a
    /// drawing may exceed.
    pub width: u16,
}

/// A drawing's columns and rows, and its cells in their rows. Numbers that index
/// what the caller handed in are `usize`, others have the arrays' own type.
///
/// ```
/// use gridtable::{Line, layout};
///
/// let lines = ["+---+---+", "| a | b |", "+---+---+"].map(Line::from);
/// let layout = layout(&lines)?;
/// let row = &layout.rows[0];
/// let text = lines[row.top + 1].text;
/// assert_eq!(&text[row.cells[1].content[0].clone()], b" b ");
/// # Ok::<(), gridtable::Refusal>(())
/// ```
#[derive(Clone, PartialEq, Eq, Hash, Debug)]
pub struct Layout {
    /// The drawing's width.
    pub width: u16,
    /// Its columns.
    pub columns: Vec<Column>,
    /// Its rows.
    pub rows: Vec<Row>,
}

/// A row of a drawing.
#[derive(Clone, PartialEq, Eq, Hash, Debug)]
pub struct Row {
    /// Its section.
    pub section: GridTableSection,
    /// The line of its upper border.
    pub top: usize,
    /// The line of its lower border.
    pub bottom: usize,
    /// The cells that start in it, from left to right.
    pub cells: Vec<Cell>,
}

/// A cell of a drawing.
#[derive(Clone, PartialEq, Eq, Hash, Debug)]
pub struct Cell {
    /// The column in which it starts.
    pub column: u16,
    /// Over how many columns it goes.
    pub colspan: u16,
    /// Over how many rows it goes.
    pub rowspan: u16,
    /// The screen column of its left border.
    pub left: u16,
    /// The bytes between its borders, on each line inside it; the first one is
    /// on the line after its row's top.
    pub content: Vec<Range<usize>>,
}

pub(crate) fn columns(entries: &[u16]) -> Vec<Column> {
    let column = |entry: &[u16]| Column {
        alignment: TableAlignment::of(entry[0]),
        width: entry[1],
    };
    entries.chunks_exact(2).map(column).collect()
}

impl Layout {
    pub(crate) fn copied(from: &LayoutArrays, reply: LayoutReply) -> Layout {
        let mut rows: Vec<Row> = from.rows[..3 * reply.rows]
            .chunks_exact(3)
            .map(|entry| Row {
                section: GridTableSection::of(entry[0]),
                top: entry[1].into(),
                bottom: entry[2].into(),
                cells: vec![],
            })
            .collect();
        let mut ranges = from.ranges[..2 * reply.ranges]
            .chunks_exact(2)
            .map(|entry| usize::from(entry[0])..usize::from(entry[1]));
        for entry in from.cells[..5 * reply.cells].chunks_exact(5) {
            let &[row, column, colspan, rowspan, left] = entry else {
                unreachable!()
            };
            let (first, last) = (usize::from(row), usize::from(row + rowspan - 1));
            let inner = rows[last].bottom - rows[first].top - 1;
            rows[first].cells.push(Cell {
                column,
                colspan,
                rowspan,
                left,
                content: ranges.by_ref().take(inner).collect(),
            });
        }
        Layout {
            width: reply.width as u16,
            columns: columns(&from.columns[..2 * reply.columns]),
            rows,
        }
    }
}
