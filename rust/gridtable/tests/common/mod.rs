//! What the tests share: the example sheets, and the second reading's values
//! beside the crate's.
#![allow(dead_code)]

use std::fs;

use gridtable::{
    Column, Drawing, GridTableSection, Layout, Line, Positions, Refusal, Sourcepos, Table,
    TableAlignment, TableCell,
};
use paper::sheet::Sheet;

/// The example sheets, and the number of columns, rows and cells that
/// `examples/README.md` lists for each.
pub const EXAMPLES: [(&str, [usize; 3]); 6] = [
    ("list.txt", [4, 5, 20]),
    ("spans.txt", [4, 6, 18]),
    ("parts.txt", [3, 6, 15]),
    ("aligned.txt", [4, 4, 16]),
    ("japanese.txt", [3, 4, 12]),
    ("untidy.txt", [4, 8, 24]),
];

pub fn example(name: &str) -> String {
    let path = format!("{}/../../examples/{name}", env!("CARGO_MANIFEST_DIR"));
    fs::read_to_string(&path).unwrap_or_else(|e| panic!("{path}: {e}"))
}

/// A text's lines at column 0.
pub fn lines(text: &str) -> Vec<Line<'_>> {
    text.lines().map(Line::from).collect()
}

/// The second reading's drawing for lines.
pub fn sheet(lines: &[Line<'_>]) -> Sheet {
    let lines: Vec<(Vec<u8>, usize)> = lines
        .iter()
        .map(|line| (line.text.to_vec(), line.column.into()))
        .collect();
    Sheet::of(&lines)
}

/// Lines for the second reading's drawing.
pub fn sheet_lines(sheet: &Sheet) -> Vec<Line<'_>> {
    (0..sheet.lines)
        .map(|r| Line::at(sheet.line(r), sheet.columns[r] as u16))
        .collect()
}

/// An answer as number and place, where it is a refusal.
pub fn answer<T>(answer: Result<T, Refusal>) -> Result<T, paper::Refusal> {
    answer.map_err(|refusal| paper::Refusal {
        number: refusal.number(),
        place: refusal.place(),
    })
}

pub fn alignment(code: usize) -> TableAlignment {
    match code {
        paper::layout::NONE => TableAlignment::None,
        paper::layout::LEFT => TableAlignment::Left,
        paper::layout::RIGHT => TableAlignment::Right,
        paper::layout::CENTER => TableAlignment::Center,
        _ => panic!("alignment {code}"),
    }
}

pub fn section(code: usize) -> GridTableSection {
    match code {
        paper::layout::HEAD => GridTableSection::Head,
        paper::layout::BODY => GridTableSection::Body,
        paper::layout::FOOT => GridTableSection::Foot,
        _ => panic!("section {code}"),
    }
}

/// The second reading's layout in the crate's types.
pub fn layout(layout: &paper::layout::Layout) -> Layout {
    let cells = |row: usize| {
        let cells = layout.cells.iter().filter(move |c| c.row == row);
        cells.map(|c| gridtable::Cell {
            column: c.column as u16,
            colspan: c.colspan as u16,
            rowspan: c.rowspan as u16,
            left: c.left as u16,
            content: c.inner.iter().map(|&(start, end)| start..end).collect(),
        })
    };
    let columns = layout.columns.iter();
    let rows = layout.rows.iter().enumerate();
    Layout {
        width: layout.width as u16,
        columns: columns.map(|c| column(c.alignment, c.width)).collect(),
        rows: rows
            .map(|(i, row)| gridtable::Row {
                section: section(row.section),
                top: row.top,
                bottom: row.bottom,
                cells: cells(i).collect(),
            })
            .collect(),
    }
}

fn column(code: usize, width: usize) -> Column {
    Column {
        alignment: alignment(code),
        width: width as u16,
    }
}

/// The second reading's table in the crate's types; none where its sizes
/// contradict its arrays, or a number fits no array.
pub fn table(table: &paper::table::Table) -> Option<Table> {
    table.check_sizes().ok()?;
    let entry = |number: usize| u16::try_from(number).ok();
    let mut lines = table.all_lines().into_iter();
    let mut cells = vec![];
    for place in &table.places {
        let lines = lines.by_ref().take(place.lines);
        let cell = TableCell::new(entry(place.row)?, entry(place.column)?, lines);
        cells.push(cell.spanning(entry(place.colspan)?, entry(place.rowspan)?));
    }
    let columns = table.alignments.iter().zip(&table.widths);
    Some(Table {
        columns: columns.map(|(&a, &w)| column(a, w)).collect(),
        sections: table.sections.iter().map(|&s| section(s)).collect(),
        cells,
    })
}

/// A drawing as the second reading has it.
pub fn drawn(drawing: &Drawing) -> Sheet {
    sheet(&drawing.lines())
}

pub fn positions(positions: &Positions) -> paper::positions::Positions {
    let all = |from: &[Sourcepos]| from.iter().map(|&p| position(p)).collect();
    paper::positions::Positions {
        table: position(positions.table),
        rows: all(&positions.rows),
        cells: all(&positions.cells),
    }
}

pub fn position(p: Sourcepos) -> paper::positions::Position {
    let number = |n: u32| n as usize;
    (
        number(p.start.line),
        number(p.start.column),
        number(p.end.line),
        number(p.end.column),
    )
}
