//! The crate gives the answers that document 01 and its decisions name.

mod common;

use common::{answer, sheet_lines};
use gridtable::{GridTableSection, Layout, TableAlignment, Workspace};
use paper::make::edge;

/// The listing of a layout of so many lines.
fn listed(layout: &Layout, height: usize) -> String {
    let cells: usize = layout.rows.iter().map(|row| row.cells.len()).sum();
    let (columns, rows) = (layout.columns.len(), layout.rows.len());
    let mut lines = vec![format!(
        "grid {} {height} {columns} {rows} {cells}",
        layout.width
    )];
    for (i, column) in layout.columns.iter().enumerate() {
        let alignment = match column.alignment {
            TableAlignment::None => 'N',
            TableAlignment::Left => 'L',
            TableAlignment::Right => 'R',
            TableAlignment::Center => 'C',
        };
        lines.push(format!("col {i} {} {alignment}", column.width));
    }
    for (i, row) in layout.rows.iter().enumerate() {
        let section = match row.section {
            GridTableSection::Head => 'H',
            GridTableSection::Body => 'B',
            GridTableSection::Foot => 'F',
        };
        lines.push(format!("row {i} {section} {} {}", row.top, row.bottom));
    }
    for (i, row) in layout.rows.iter().enumerate() {
        for cell in &row.cells {
            let place = format!("{i} {} {} {}", cell.column, cell.colspan, cell.rowspan);
            lines.push(format!("cell {place} {}", cell.content.len()));
        }
    }
    lines.join(";")
}

#[test]
fn sheets_have_their_listings_and_refusals() {
    let mut workspace = Workspace::new();
    let mut seen = 0;
    for (sheet, expected) in edge::sheets() {
        // The crate can't be handed sizes that contradict each other.
        if sheet.check_sizes().is_err() {
            continue;
        }
        let laid = answer(workspace.layout(&sheet_lines(&sheet)));
        let listed = laid.map(|layout| listed(&layout, sheet.lines));
        let listed = listed.map_err(|refusal| (refusal.number, refusal.place));
        assert_eq!(listed, expected.map(str::to_string), "{sheet:?}");
        seen += 1;
    }
    assert!(seen > 20);
}

#[test]
fn tables_have_their_drawings_and_refusals() {
    let mut workspace = Workspace::new();
    let mut seen = 0;
    for (given, expected) in edge::tables() {
        let Some(table) = common::table(&given) else {
            continue;
        };
        let drawn = answer(workspace.redraw(&table, 0));
        let drawn = drawn.map_err(|refusal| (refusal.number, refusal.place));
        let expected = expected.map(|lines| lines.join("\n") + "\n");
        assert_eq!(
            drawn.map(|drawing| drawing.to_string()),
            expected,
            "{given:?}"
        );
        seen += 1;
    }
    assert!(seen > 10);
}
