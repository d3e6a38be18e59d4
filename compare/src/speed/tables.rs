//! The tables whose redrawing is timed, each with a drawing of it.

use crate::given;
use crate::paper::layout::{BODY, HEAD, NONE, RIGHT};
use crate::paper::sheet::Sheet;
use crate::paper::table::{Place, Table};

pub struct Case {
    pub name: &'static str,
    pub table: Table,
    pub sheet: Sheet,
}

pub fn all() -> Vec<Case> {
    let japanese = "\u{4E2D}\u{3042}".repeat(31);
    let mut all = vec![
        drawn("price list of 20 rows", price_list(20, "Article")),
        drawn(
            "price list in Japanese",
            price_list(20, "\u{3048}\u{3093}\u{3074}\u{3064}"),
        ),
        drawn(
            "one-line cells, full size",
            full_width(even(63, 16, 7, "ab 12")),
        ),
        drawn("1,024 cells, empty", even(32, 32, 1, "")),
        drawn("1,024 cells, full size", full_width(three_lines())),
        drawn("one cell, full size", one_cell(126, &"x".repeat(125))),
        drawn("tall spans", tall_spans()),
        drawn("wide spans", wide_spans()),
        drawn("Japanese text, full size", one_cell(126, &japanese)),
        drawn(
            "accented letters, full size",
            one_cell(126, &"\u{E9}".repeat(125)),
        ),
        drawn(
            "marks up to 512 bytes a line",
            one_cell(62, &format!("x{}", "\u{301}".repeat(254))),
        ),
        drawn("bars on 122 lines over 60 columns", bars()),
        late_refusal(),
        drawn("smallest table", even(1, 1, 1, "")),
    ];
    for rows in [8, 16, 32, 63] {
        all.push(drawn("growth with rows", even(rows, 16, 3, "ab")));
    }
    for columns in [4, 8, 16, 31] {
        all.push(drawn("growth with columns", even(32, columns, 3, "ab")));
    }
    all
}

/// A table with its own drawing.
fn drawn(name: &'static str, table: Table) -> Case {
    let sheet = given::draw(&table, 0);
    Case { name, table, sheet }
}

fn late_refusal() -> Case {
    let table = late_split();
    Case {
        name: "late refusal: 11",
        sheet: before_split(&table),
        table,
    }
}

/// A grid without cells, all its rows Body.
fn grid(rows: usize, columns: usize, width: usize) -> Table {
    Table {
        columns,
        rows,
        alignments: vec![NONE; columns],
        widths: vec![width; columns],
        sections: vec![BODY; rows],
        ..Table::default()
    }
}

/// Puts a cell at row and column, over so many columns and rows.
fn put(table: &mut Table, at: (usize, usize), spans: (usize, usize), lines: &[&str]) {
    let place = Place {
        row: at.0,
        column: at.1,
        colspan: spans.0,
        rowspan: spans.1,
        lines: lines.len(),
    };
    let lines: Vec<Vec<u8>> = lines.iter().map(|l| l.as_bytes().to_vec()).collect();
    table.cells += 1;
    table.add_cell(place, &lines);
}

/// A row of single cells.
fn put_row(table: &mut Table, row: usize, lines: &[&str]) {
    for column in 0..table.columns {
        put(table, (row, column), (1, 1), lines);
    }
}

/// A head, then rows of article, amount and price.
fn price_list(rows: usize, name: &str) -> Table {
    let mut table = grid(rows + 1, 3, 8);
    table.sections[0] = HEAD;
    table.alignments = vec![NONE, RIGHT, RIGHT];
    table.widths[0] = 26;
    for (column, title) in ["Article", "Amount", "Price"].iter().enumerate() {
        put(&mut table, (0, column), (1, 1), &[title]);
    }
    for row in 0..rows {
        let cells = [
            format!("{name} {row}"),
            format!("{row:6}"),
            format!("{:7}", row * 137 + 95),
        ];
        for (column, text) in cells.iter().enumerate() {
            put(&mut table, (row + 1, column), (1, 1), &[text]);
        }
    }
    table
}

pub fn even(rows: usize, columns: usize, width: usize, text: &str) -> Table {
    let mut table = grid(rows, columns, width);
    let lines: &[&str] = if text.is_empty() { &[] } else { &[text] };
    for row in 0..rows {
        put_row(&mut table, row, lines);
    }
    table
}

/// The last column one narrower, where all together take 129 columns.
fn full_width(mut table: Table) -> Table {
    *table.widths.last_mut().unwrap() -= 1;
    table
}

/// 32 by 32 cells of three lines, in the last row of two.
fn three_lines() -> Table {
    let mut table = grid(32, 32, 3);
    for row in 0..32 {
        put_row(&mut table, row, &["a"; 3][row / 31..]);
    }
    table
}

fn one_cell(lines: usize, text: &str) -> Table {
    let mut table = grid(1, 1, 1);
    put(&mut table, (0, 0), (1, 1), &vec![text; lines]);
    table
}

/// A column of 63 cells, beside it 40 columns of one cell each.
fn tall_spans() -> Table {
    let mut table = grid(63, 41, 2);
    put(&mut table, (0, 0), (1, 1), &["x"]);
    for column in 1..41 {
        put(&mut table, (0, column), (1, 63), &["x"; 125]);
    }
    for row in 1..63 {
        put(&mut table, (row, 0), (1, 1), &["x"]);
    }
    table
}

/// A row of 41 cells, below it 62 rows of one cell each.
fn wide_spans() -> Table {
    let mut table = grid(63, 41, 2);
    put_row(&mut table, 0, &["x"]);
    for row in 1..63 {
        put(&mut table, (row, 0), (41, 1), &[&"x".repeat(120)]);
    }
    table
}

/// Between two rows of 60 cells one cell, as tall as a drawing can have it,
/// with a bar on every column line except on its last line.
fn bars() -> Table {
    let mut table = grid(3, 60, 1);
    let line = "| ".repeat(59);
    let mut lines = vec![line.as_str(); 121];
    lines.push("x");
    put_row(&mut table, 0, &[]);
    put(&mut table, (1, 0), (60, 1), &lines);
    put_row(&mut table, 2, &[]);
    table
}

/// 60 rows of 16 cells, then a cell over all columns that splits at the last
/// column line, and a row of 16 cells.
fn late_split() -> Table {
    let mut table = grid(62, 16, 6);
    for row in 0..60 {
        put_row(&mut table, row, &["ab 12"]);
    }
    // The last column line stands at 15 times 7; text starts at 2.
    let line = format!("{}|", "x".repeat(15 * 7 - 2));
    put(&mut table, (60, 0), (16, 1), &[&line]);
    put_row(&mut table, 61, &["ab 12"]);
    table
}

/// The drawing with the splitting line one column further left, so that it
/// reads as this table.
fn before_split(table: &Table) -> Sheet {
    let drawn = given::draw(table, 0);
    let mut lines: Vec<(Vec<u8>, usize)> = (0..drawn.lines)
        .map(|r| (drawn.line(r).to_vec(), 0))
        .collect();
    let line = &mut lines[2 * 60 + 1].0;
    line.remove(1);
    line.insert(line.len() - 1, b' ');
    Sheet::of(&lines)
}
