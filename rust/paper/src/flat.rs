//! A table's sizes and flat arrays, in the entries that the redraw call takes.

use std::fmt;

use super::table::{Place, Table};

#[derive(Clone, PartialEq, Eq)]
pub struct Flat {
    /// Columns, rows, cells, lines, bytes.
    pub sizes: [usize; 5],
    /// Alignment and declared width of each column.
    pub columns: Vec<u16>,
    pub sections: Vec<u8>,
    /// Row, column, colspan, rowspan and number of lines of each cell.
    pub cells: Vec<u16>,
    pub lengths: Vec<u16>,
    pub text: Vec<u8>,
}

/// The text as characters, so that a printed difference can be read.
impl fmt::Debug for Flat {
    fn fmt(&self, f: &mut fmt::Formatter<'_>) -> fmt::Result {
        let grid = (&self.columns, &self.sections, &self.cells, &self.lengths);
        let text = self.text.escape_ascii();
        write!(f, "{:?} {grid:?} \"{text}\"", self.sizes)
    }
}

impl Flat {
    /// A number that no entry holds becomes the largest entry.
    pub fn of(table: &Table) -> Flat {
        let entry = |number: usize| u16::try_from(number).unwrap_or(u16::MAX);
        let entries = |numbers: &[usize]| numbers.iter().map(|&n| entry(n)).collect();
        let [columns, sections, cells, lengths, _] = table.arrays();
        Flat {
            sizes: table.sizes(),
            columns: entries(&columns),
            sections: sections
                .iter()
                .map(|&s| u8::try_from(s).unwrap_or(u8::MAX))
                .collect(),
            cells: entries(&cells),
            lengths: entries(&lengths),
            text: table.text.clone(),
        }
    }

    /// None where a column or a cell lacks entries, which is a 13.
    pub fn table(&self) -> Option<Table> {
        let (columns, []) = self.columns.as_chunks::<2>() else {
            return None;
        };
        let (cells, []) = self.cells.as_chunks::<5>() else {
            return None;
        };
        let [columns_size, rows, cells_size, lines, bytes] = self.sizes;
        Some(Table {
            columns: columns_size,
            rows,
            cells: cells_size,
            lines,
            bytes,
            alignments: columns.iter().map(|c| c[0].into()).collect(),
            widths: columns.iter().map(|c| c[1].into()).collect(),
            sections: self.sections.iter().map(|&s| s.into()).collect(),
            places: cells.iter().map(|&c| place(c)).collect(),
            lengths: self.lengths.iter().map(|&l| l.into()).collect(),
            text: self.text.clone(),
        })
    }
}

pub fn place(cell: [u16; 5]) -> Place {
    let [row, column, colspan, rowspan, lines] = cell.map(usize::from);
    Place {
        row,
        column,
        colspan,
        rowspan,
        lines,
    }
}
