//! Cutting a line, and the table that a drawing reads as.

use super::layout::{self, Layout, Space};
use super::sheet::Sheet;
use super::table::{Place, Table};
use super::{Answer, demand, limits, set, within};

/// A line as it is cut: its text, number, table byte and column.
#[derive(Clone, Debug)]
pub struct Line<'t> {
    pub text: &'t [u8],
    pub line: usize,
    pub byte: usize,
    pub column: usize,
}

/// A view of a line's text, from `start` to `end`.
#[derive(Clone, Copy, PartialEq, Eq, Debug)]
pub struct Fragment {
    pub start: usize,
    pub end: usize,
    pub line: usize,
    pub byte: usize,
    pub column: usize,
}

pub fn cut(line: &Line<'_>, range: (usize, usize), left: usize) -> Answer<Fragment> {
    let (start, end) = range;
    let into_character = |at: usize| line.text.get(at).is_some_and(|b| (0x80..=0xBF).contains(b));
    demand(start <= end && end <= line.text.len())?;
    demand(!into_character(start) && !into_character(end))?;
    within(line.text.len(), limits::LINE_BYTES)?;
    within(line.column, limits::LINE_COLUMN)?;
    within(left, limits::LEFT)?;
    within(line.line, limits::REGISTER_NUMBER)?;
    within(line.byte, limits::REGISTER_NUMBER)?;

    let text = set::trimmed(&line.text[start..end]);
    let mut fragment = Fragment {
        start,
        end: start + text.len(),
        line: line.line,
        byte: line.byte + start,
        column: line.column + left + 1,
    };
    match text.first() {
        Some(b'\t') if set::tab_columns(fragment.column) > 1 => fragment.column += 1,
        Some(b' ' | b'\t') => {
            fragment.start += 1;
            fragment.byte += 1;
            fragment.column += 1;
        }
        _ => {}
    }
    Ok(fragment)
}

/// The table that a drawing reads as: its cells have their cut lines, empty
/// last ones dropped.
pub fn read_table(sheet: &Sheet) -> Answer<Table> {
    let layout = layout::read(sheet, Space::ENOUGH)?;
    Ok(table_of(sheet, &layout))
}

pub fn table_of(sheet: &Sheet, layout: &Layout) -> Table {
    let mut table = Table {
        columns: layout.columns.len(),
        rows: layout.rows.len(),
        cells: layout.cells.len(),
        alignments: layout.columns.iter().map(|c| c.alignment).collect(),
        widths: layout.columns.iter().map(|c| c.width).collect(),
        sections: layout.rows.iter().map(|r| r.section).collect(),
        ..Table::default()
    };
    for cell in &layout.cells {
        let top = layout.rows[cell.row].top;
        let mut lines: Vec<Vec<u8>> = vec![];
        for (i, &range) in cell.inner.iter().enumerate() {
            let line = Line {
                text: sheet.line(top + 1 + i),
                line: 0,
                byte: 0,
                column: sheet.columns[top + 1 + i],
            };
            let fragment = cut(&line, range, cell.left).unwrap();
            lines.push(line.text[fragment.start..fragment.end].to_vec());
        }
        while lines.last().is_some_and(|line| line.is_empty()) {
            lines.pop();
        }
        let place = Place {
            row: cell.row,
            column: cell.column,
            colspan: cell.colspan,
            rowspan: cell.rowspan,
            lines: lines.len(),
        };
        table.add_cell(place, &lines);
    }
    table
}
