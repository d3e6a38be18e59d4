//! The given Rust run on the arguments of document 01, its answers turned
//! into the same form.

use crate::nodes::{
    Arena, GridTableColumn, GridTableSection, Node, NodeGridTable, NodeGridTableCell, NodeValue,
    Sourcepos, TableAlignment,
};
use crate::paper::layout::{Cell, Column, Layout, Row};
use crate::paper::page::PageTable;
use crate::paper::positions::Positions;
use crate::paper::sheet::Sheet;
use crate::paper::table::{Place, Table};
use crate::parser::grid_table::{self, Built, PlacedLine};
use crate::{cm, html};

const ALIGNMENTS: [TableAlignment; 4] = [
    TableAlignment::None,
    TableAlignment::Left,
    TableAlignment::Right,
    TableAlignment::Center,
];
const SECTIONS: [GridTableSection; 3] = [
    GridTableSection::Head,
    GridTableSection::Body,
    GridTableSection::Foot,
];

fn text(bytes: &[u8]) -> &str {
    std::str::from_utf8(bytes).unwrap()
}

/// `layout` on a sheet whose lines are UTF-8.
pub fn layout(sheet: &Sheet) -> Option<Layout> {
    let lines: Vec<(&str, usize)> = (0..sheet.lines)
        .map(|r| (text(sheet.line(r)), sheet.columns[r]))
        .collect();
    let (columns, rows) = grid_table::layout(&lines)?;
    let number = |a: TableAlignment| ALIGNMENTS.iter().position(|&b| a == b).unwrap();
    let cells = rows.iter().enumerate().flat_map(|(r, row)| {
        row.cells.iter().map(move |cell| Cell {
            row: r,
            column: cell.value.column,
            colspan: cell.value.colspan,
            rowspan: cell.value.rowspan,
            left: cell.left,
            inner: cell.content.clone(),
        })
    });
    Some(Layout {
        width: grid_table::trim_end(lines[0].0).len(),
        height: sheet.lines,
        columns: columns
            .iter()
            .map(|c| Column {
                alignment: number(c.alignment),
                width: c.width,
            })
            .collect(),
        cells: cells.collect(),
        rows: rows
            .iter()
            .map(|row| Row {
                section: SECTIONS.iter().position(|&s| s == row.section).unwrap(),
                top: row.top,
                bottom: row.bottom,
            })
            .collect(),
    })
}

/// `build_grid_table` on a sheet whose lines are UTF-8.
pub fn build(sheet: &Sheet, numbers: &[usize], bytes: &[usize]) -> Option<Built> {
    let lines: Vec<PlacedLine<'_>> = (0..sheet.lines)
        .map(|r| PlacedLine {
            text: text(sheet.line(r)),
            line: numbers[r],
            byte: bytes[r],
            column: sheet.columns[r],
        })
        .collect();
    grid_table::build(&lines)
}

/// The positions that `build_grid_table` gives its nodes.
pub fn positions(built: &Built) -> Positions {
    let four = |p: Sourcepos| (p.start.line, p.start.column, p.end.line, p.end.column);
    Positions {
        table: four(built.table),
        rows: built.rows.iter().copied().map(four).collect(),
        cells: built.cells.iter().map(|cell| four(cell.0)).collect(),
    }
}

/// The table of a sheet whose lines are UTF-8, from `layout` and the cut lines of
/// `build_grid_table`, empty last ones dropped.
pub fn table(sheet: &Sheet) -> Option<Table> {
    let layout = layout(sheet)?;
    let zeros = vec![0; sheet.lines];
    let built = build(sheet, &zeros, &zeros)?;
    let mut table = Table {
        columns: layout.columns.len(),
        rows: layout.rows.len(),
        cells: layout.cells.len(),
        alignments: layout.columns.iter().map(|c| c.alignment).collect(),
        widths: layout.columns.iter().map(|c| c.width).collect(),
        sections: layout.rows.iter().map(|r| r.section).collect(),
        ..Table::default()
    };
    for (cell, (_, fragments)) in layout.cells.iter().zip(&built.cells) {
        let mut lines: Vec<Vec<u8>> = fragments.iter().map(|f| f.0.clone().into_bytes()).collect();
        while lines.last().is_some_and(|line| line.is_empty()) {
            lines.pop();
        }
        let place = Place {
            row: cell.row,
            column: cell.column,
            colspan: cell.colspan,
            rowspan: cell.rowspan,
            lines: lines.len(),
        };
        table.add_cell(place, &lines);
    }
    Some(table)
}

/// The node tree of a table that keeps the grid rules.
fn tree<'a>(
    arena: &'a Arena<'a>,
    columns: (&[usize], &[usize]),
    sections: &[usize],
    places: &[Place],
    contents: Vec<String>,
) -> Node<'a> {
    let (alignments, widths) = columns;
    let columns = alignments
        .iter()
        .zip(widths)
        .map(|(&a, &width)| GridTableColumn {
            alignment: ALIGNMENTS[a],
            width,
        });
    let value = NodeGridTable {
        columns: columns.collect(),
    };
    let table: Node<'a> = arena.alloc(NodeValue::GridTable(Box::new(value)).into());
    let mut rows: Vec<Node<'a>> = vec![];
    for &section in sections {
        rows.push(arena.alloc(NodeValue::GridTableRow(SECTIONS[section]).into()));
    }
    table.extend(rows.iter().copied());
    for (place, content) in places.iter().zip(contents) {
        let value = NodeGridTableCell {
            column: place.column,
            colspan: place.colspan,
            rowspan: place.rowspan,
        };
        let cell = arena.alloc(NodeValue::GridTableCell(value).into());
        cell.append(arena.alloc(NodeValue::Text(content).into()));
        rows[place.row].append(cell);
    }
    table
}

/// Hands over `format_grid_table` on a table that keeps the grid rules, its node
/// tree ready.
pub fn with_drawing<T>(
    table: &Table,
    origin: usize,
    f: impl FnOnce(&dyn Fn() -> String) -> T,
) -> T {
    let mut contents = vec![];
    let all = table.all_lines();
    let mut start = 0;
    for place in &table.places {
        let lines: Vec<&str> = all[start..start + place.lines]
            .iter()
            .map(|line| text(line))
            .collect();
        contents.push(lines.join("\n"));
        start += place.lines;
    }
    let arena = Arena::new();
    let columns = (&table.alignments[..], &table.widths[..]);
    let root = tree(&arena, columns, &table.sections, &table.places, contents);
    f(&|| cm::draw(root, origin))
}

/// The drawing of a table that keeps the grid rules.
pub fn draw(table: &Table, origin: usize) -> Sheet {
    let drawn = with_drawing(table, origin, |draw| draw());
    let lines: Vec<(Vec<u8>, usize)> = drawn
        .lines()
        .map(|line| (line.as_bytes().to_vec(), origin))
        .collect();
    Sheet::of(&lines)
}

/// Hands over the page of a table that keeps the grid rules, its node tree
/// ready, each cell with this content.
pub fn with_page<T>(
    table: &PageTable,
    widths: bool,
    contents: Vec<String>,
    f: impl FnOnce(&dyn Fn() -> String) -> T,
) -> T {
    let arena = Arena::new();
    let columns = (&table.alignments[..], &table.widths[..]);
    let root = tree(&arena, columns, &table.sections, &table.places, contents);
    f(&|| html::page(root, widths))
}

/// The page of a table that keeps the grid rules. Each inner byte goes
/// through as the character of that number, since inner bytes need not be
/// UTF-8; tags are ASCII.
pub fn page(table: &PageTable, widths: bool) -> Vec<u8> {
    let inner = table.inner_of_cells().into_iter();
    let contents = inner.map(|bytes| bytes.iter().map(|&b| char::from(b)).collect());
    let page = with_page(table, widths, contents.collect(), |page| page());
    page.chars().map(|c| u8::try_from(c).unwrap()).collect()
}
