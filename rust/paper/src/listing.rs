//! The listing program's output for its input bytes.

use super::layout::{self, Layout, Space};
use super::sheet::Sheet;

pub fn listing(input: &[u8]) -> String {
    match layout::read(&sheet_of(input), Space::ENOUGH) {
        Ok(layout) => listed(&layout),
        Err(refusal) => format!("refused {} {}\n", refusal.number, refusal.place),
    }
}

/// Lines end with a line feed; the last may lack it.
pub fn sheet_of(input: &[u8]) -> Sheet {
    let mut lines: Vec<&[u8]> = input.split(|&b| b == b'\n').collect();
    if lines.last().is_some_and(|line| line.is_empty()) {
        lines.pop();
    }
    let lines: Vec<(Vec<u8>, usize)> = lines.iter().map(|line| (line.to_vec(), 0)).collect();
    Sheet::of(&lines)
}

pub fn listed(layout: &Layout) -> String {
    let mut out = format!(
        "grid {} {} {} {} {}\n",
        layout.width,
        layout.height,
        layout.columns.len(),
        layout.rows.len(),
        layout.cells.len()
    );
    for (i, column) in layout.columns.iter().enumerate() {
        let alignment = ["N", "L", "R", "C"][column.alignment];
        out += &format!("col {i} {} {alignment}\n", column.width);
    }
    for (i, row) in layout.rows.iter().enumerate() {
        let section = ["H", "B", "F"][row.section];
        out += &format!("row {i} {section} {} {}\n", row.top, row.bottom);
    }
    for cell in &layout.cells {
        out += &format!(
            "cell {} {} {} {} {}\n",
            cell.row,
            cell.column,
            cell.colspan,
            cell.rowspan,
            cell.inner.len()
        );
    }
    out
}
