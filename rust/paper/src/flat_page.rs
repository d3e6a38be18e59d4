//! A table for the page: its sizes and flat arrays, in the entries that the
//! page call takes.

use std::fmt;

use super::flat::place;
use super::page::PageTable;

#[derive(Clone, PartialEq, Eq)]
pub struct FlatPage {
    /// Columns, rows, cells, inner bytes.
    pub sizes: [usize; 4],
    /// Alignment and declared width of each column.
    pub columns: Vec<u16>,
    pub sections: Vec<u8>,
    /// Row, column, colspan, rowspan and number of inner bytes of each cell.
    pub cells: Vec<u16>,
    pub inner: Vec<u8>,
}

impl fmt::Debug for FlatPage {
    fn fmt(&self, f: &mut fmt::Formatter<'_>) -> fmt::Result {
        let grid = (&self.columns, &self.sections, &self.cells);
        let inner = self.inner.escape_ascii();
        write!(f, "{:?} {grid:?} \"{inner}\"", self.sizes)
    }
}

impl FlatPage {
    /// A number that no entry holds becomes the largest entry.
    pub fn of(table: &PageTable) -> FlatPage {
        let entry = |number: usize| u16::try_from(number).unwrap_or(u16::MAX);
        let columns = table.alignments.iter().zip(&table.widths);
        let cells = table.places.iter().zip(&table.lengths);
        FlatPage {
            sizes: [table.columns, table.rows, table.cells, table.bytes],
            columns: columns.flat_map(|(&a, &w)| [a, w].map(entry)).collect(),
            sections: table
                .sections
                .iter()
                .map(|&s| u8::try_from(s).unwrap_or(u8::MAX))
                .collect(),
            cells: cells
                .flat_map(|(p, &length)| [p.row, p.column, p.colspan, p.rowspan, length].map(entry))
                .collect(),
            inner: table.inner.clone(),
        }
    }

    /// None where a column or a cell lacks entries, which is a 13.
    pub fn table(&self) -> Option<PageTable> {
        let (columns, []) = self.columns.as_chunks::<2>() else {
            return None;
        };
        let (cells, []) = self.cells.as_chunks::<5>() else {
            return None;
        };
        Some(PageTable {
            columns: self.sizes[0],
            rows: self.sizes[1],
            cells: self.sizes[2],
            bytes: self.sizes[3],
            alignments: columns.iter().map(|c| c[0].into()).collect(),
            widths: columns.iter().map(|c| c[1].into()).collect(),
            sections: self.sections.iter().map(|&s| s.into()).collect(),
            places: cells.iter().map(|&c| place(c)).collect(),
            lengths: cells.iter().map(|c| c[4].into()).collect(),
            inner: self.inner.clone(),
        })
    }
}
