//! Positions of the table, its rows and its cells.

use super::layout::{self, Layout, Space};
use super::sheet::Sheet;
use super::{Answer, demand, limits, set, within};

/// First line and column, last line and column.
pub type Position = (usize, usize, usize, usize);

#[derive(Clone, PartialEq, Eq, Debug)]
pub struct Positions {
    pub table: Position,
    pub rows: Vec<Position>,
    pub cells: Vec<Position>,
}

/// `numbers` and `bytes` have each line's number and table byte.
pub fn positions(
    sheet: &Sheet,
    numbers: &[usize],
    bytes: &[usize],
    space: Space,
) -> Answer<(Layout, Positions)> {
    sheet.check_sizes()?;
    demand(numbers.len() == sheet.lines)?;
    demand(bytes.len() == sheet.lines)?;
    sheet.check_limits()?;
    for r in 0..sheet.lines {
        within(numbers[r], limits::REGISTER_NUMBER)?;
        within(bytes[r], limits::REGISTER_NUMBER)?;
    }
    let layout = layout::read_checked(sheet, space)?;

    let trimmed_end = |r: usize| bytes[r] + set::trimmed(sheet.line(r)).len();
    let whole = |first: usize, last: usize| {
        (
            numbers[first],
            bytes[first] + 1,
            numbers[last],
            trimmed_end(last),
        )
    };
    let empty = |top: usize| (numbers[top], bytes[top] + 1, numbers[top], bytes[top]);

    let mut rows = vec![];
    for row in &layout.rows {
        if row.bottom - row.top < 2 {
            rows.push(empty(row.top));
        } else {
            rows.push(whole(row.top + 1, row.bottom - 1));
        }
    }
    let mut cells = vec![];
    for cell in &layout.cells {
        let top = layout.rows[cell.row].top;
        if cell.inner.is_empty() {
            cells.push(empty(top));
            continue;
        }
        let (first, last) = (top + 1, top + cell.inner.len());
        cells.push((
            numbers[first],
            bytes[first] + cell.inner[0].0 + 1,
            numbers[last],
            bytes[last] + cell.inner[cell.inner.len() - 1].1,
        ));
    }
    let table = whole(0, sheet.lines - 1);
    Ok((layout, Positions { table, rows, cells }))
}
