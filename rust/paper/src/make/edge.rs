//! The papers' own cases, with the answers that they name.

use super::sheets::even;
use crate::layout::{BODY, FOOT, HEAD, LEFT, NONE};
use crate::sheet::Sheet;
use crate::table::{Place, Table};

/// The listing, its lines parted by `;`, or refusal number and place.
pub type Listed = Result<&'static str, (usize, usize)>;

/// Lines at column 0 as a sheet.
pub fn sheet(lines: &[&str]) -> Sheet {
    byte_sheet(&lines.iter().map(|l| l.as_bytes()).collect::<Vec<_>>())
}

fn byte_sheet(lines: &[&[u8]]) -> Sheet {
    let lines: Vec<(Vec<u8>, usize)> = lines.iter().map(|l| (l.to_vec(), 0)).collect();
    Sheet::of(&lines)
}

/// Drawings of one byte a column that show how tracing goes.
pub fn small_sheets() -> [&'static [&'static str]; 8] {
    [
        &["+-+", "+++", "+++"],
        &["+-+-+", "+-++|", "|x+++", "+--++"],
        &["+-+-+", "|   |", "+---+"],
        &["+--:+--+", "|      |", "+------+"],
        &["+---+", "|   |", "+:--+"],
        &[
            "+---+:--+",
            "|       |",
            "+---+---+",
            "|   |   |",
            "+---+---+",
        ],
        &["+-+", "+=+", "+-+", "+=+"],
        &["+-+-+-+", "| | | |", "| +-+ |", "| | | |", "+-+-+-+"],
    ]
}

pub fn sheets() -> Vec<(Sheet, Listed)> {
    let mut cases = vec![
        (sheet(&["+"]), Err((6, 0))),
        (
            sheet(&["+-+", "+-+"]),
            Ok("grid 3 2 1 1 1;col 0 1 N;row 0 B 0 1;cell 0 0 1 1 0"),
        ),
        (
            sheet(&["+---+---+", "| a | b |", "+---+---+"]),
            Ok("grid 9 3 2 1 2;col 0 3 N;col 1 3 N;row 0 B 0 2;cell 0 0 1 1 1;cell 0 1 1 1 1"),
        ),
        (
            sheet(&["+-+", "+++", "+++"]),
            Ok(
                "grid 3 3 2 2 3;col 0 0 N;col 1 0 N;row 0 B 0 1;row 1 B 1 2;\
                cell 0 0 2 1 0;cell 1 0 1 1 0;cell 1 1 1 1 0",
            ),
        ),
        (sheet(&["++", "++"]), Err((4, 0))),
        (sheet(&["+::+"]), Err((4, 0))),
        (sheet(&["+:-:+"]), Err((6, 0))),
        (
            sheet(&["+--+", "| a|", "+==+"]),
            Ok("grid 4 3 1 1 1;col 0 2 N;row 0 H 0 2;cell 0 0 1 1 1"),
        ),
        (byte_sheet(&[b"|\xC3", b"\xA9|"]), Err((3, 0))),
        (sheet(&["x", "\r"]), Err((3, 1))),
        (sheet(&["+-+", ""]), Err((5, 1))),
        (sheet(&["", "+-+"]), Err((4, 0))),
        (sheet(&[&format!("+-+{}", " ".repeat(510))]), Err((2, 0))),
        (sheet(&["+-+-+", "+-++|", "|x+++", "+--++"]), Err((6, 0))),
        (
            sheet(&["+-+-+", "|   |", "+---+"]),
            Ok("grid 5 3 1 1 1;col 0 3 N;row 0 B 0 2;cell 0 0 1 1 1"),
        ),
        (
            sheet(&["+--:+--+", "|      |", "+------+"]),
            Ok("grid 8 3 1 1 1;col 0 6 R;row 0 B 0 2;cell 0 0 1 1 1"),
        ),
        (
            sheet(&["+---+", "+:--+", "+---+"]),
            Ok("grid 5 3 1 1 1;col 0 3 N;row 0 B 0 2;cell 0 0 1 1 1"),
        ),
        (sheet(&["+---+", "|   |", "+:--+"]), Err((6, 0))),
        (
            sheet(&[
                "+---+:--+",
                "|       |",
                "+---+---+",
                "|   |   |",
                "+---+---+",
            ]),
            Ok(
                "grid 9 5 2 2 3;col 0 3 N;col 1 3 L;row 0 B 0 2;row 1 B 2 4;\
                cell 0 0 2 1 1;cell 1 0 1 1 1;cell 1 1 1 1 1",
            ),
        ),
        (
            sheet(&["+-+", "+=+", "+-+", "+=+"]),
            Ok(
                "grid 3 4 1 3 3;col 0 1 N;row 0 H 0 1;row 1 F 1 2;row 2 F 2 3;\
                cell 0 0 1 1 0;cell 1 0 1 1 0;cell 2 0 1 1 0",
            ),
        ),
        (
            sheet(&["+-+", "+=+", "+=+", "+-+"]),
            Ok(
                "grid 3 4 1 3 3;col 0 1 N;row 0 H 0 1;row 1 B 1 2;row 2 B 2 3;\
                cell 0 0 1 1 0;cell 1 0 1 1 0;cell 2 0 1 1 0",
            ),
        ),
        (
            sheet(&["+--+", "+=\u{301}=+", "+--+"]),
            Ok("grid 4 3 1 1 1;col 0 2 N;row 0 B 0 2;cell 0 0 1 1 1"),
        ),
        (
            sheet(&["+-+", "\u{301}|a|\u{301}", "+-+"]),
            Ok("grid 3 3 1 1 1;col 0 1 N;row 0 B 0 2;cell 0 0 1 1 1"),
        ),
        (
            sheet(&["+-+", "+++", "||\u{301}|", "+++"]),
            Ok(
                "grid 3 4 2 2 3;col 0 0 N;col 1 0 N;row 0 B 0 1;row 1 B 1 3;\
                cell 0 0 2 1 0;cell 1 0 1 1 1;cell 1 1 1 1 1",
            ),
        ),
        (
            sheet(&["+-+", "| |", "+-+"]),
            Ok("grid 3 3 1 1 1;col 0 1 N;row 0 B 0 2;cell 0 0 1 1 1"),
        ),
        (sheet(&[]), Err((1, 0))),
        (Sheet::of(&even(33, 32, 1, 1)), Err((7, 0))),
    ];
    let mut wrong = sheet(&["+-+"]);
    wrong.lengths.push(3);
    cases.push((wrong, Err((13, 0))));
    cases
}

/// The drawn lines, or refusal number and place.
pub type Drawn = Result<&'static [&'static str], (usize, usize)>;

pub type CellText<'t> = ((usize, usize, usize, usize), &'t [&'t str]);

/// Columns as alignment and width, cells as row, column, spans and lines.
pub fn table(columns: &[(usize, usize)], sections: &[usize], cells: &[CellText<'_>]) -> Table {
    let mut table = Table {
        columns: columns.len(),
        rows: sections.len(),
        cells: cells.len(),
        alignments: columns.iter().map(|c| c.0).collect(),
        widths: columns.iter().map(|c| c.1).collect(),
        sections: sections.to_vec(),
        ..Table::default()
    };
    for &((row, column, colspan, rowspan), lines) in cells {
        let place = Place {
            row,
            column,
            colspan,
            rowspan,
            lines: lines.len(),
        };
        let lines: Vec<Vec<u8>> = lines.iter().map(|l| l.as_bytes().to_vec()).collect();
        table.add_cell(place, &lines);
    }
    table
}

/// Rows a, b; lines over both columns; c, d; declared widths 1.
pub fn three_rows(middle: &[&str]) -> Table {
    table(
        &[(NONE, 1), (NONE, 1)],
        &[BODY; 3],
        &[
            ((0, 0, 1, 1), &["a"]),
            ((0, 1, 1, 1), &["b"]),
            ((1, 0, 2, 1), middle),
            ((2, 0, 1, 1), &["c"]),
            ((2, 1, 1, 1), &["d"]),
        ],
    )
}

fn one_cell(section: usize, lines: &[&str]) -> Table {
    table(&[(NONE, 1)], &[section], &[((0, 0, 1, 1), lines)])
}

pub fn tables() -> Vec<(Table, Drawn)> {
    let marks = "\u{301}".repeat(254);
    let aligned_under_span = table(
        &[(NONE, 1), (LEFT, 1)],
        &[BODY; 2],
        &[
            ((0, 0, 2, 1), &[]),
            ((1, 0, 1, 1), &[]),
            ((1, 1, 1, 1), &[]),
        ],
    );
    let mut wrong_section = one_cell(BODY, &["x"]);
    wrong_section.sections[0] = 3;
    let no_columns = Table {
        rows: 200,
        sections: vec![BODY; 200],
        ..Table::default()
    };
    vec![
        (one_cell(BODY, &["ab"]), Ok(&["+---+", "| ab|", "+---+"])),
        (three_rows(&["x|y"]), Err((11, 2))),
        (
            three_rows(&["x|y", "z"]),
            Ok(&[
                "+--+--+", "| a| b|", "+--+--+", "| x|y |", "| z   |", "+--+--+", "| c| d|",
                "+--+--+",
            ]),
        ),
        (one_cell(BODY, &[&format!("xx{marks}")]), Err((2, 0))),
        (one_cell(FOOT, &["x"]), Err((9, 0))),
        (aligned_under_span, Err((10, 1))),
        (wrong_section, Err((13, 0))),
        (no_columns, Err((1, 0))),
        (one_cell(BODY, &[""; 129]), Err((2, 0))),
        (one_cell(BODY, &["x", "\r"]), Err((3, 1))),
        (
            table(&[(NONE, 1)], &[HEAD, BODY], &[((0, 0, 1, 2), &[])]),
            Err((8, 0)),
        ),
        (
            one_cell(HEAD, &["\u{301}x"]),
            Ok(&["+--+", "| \u{301}x|", "+==+"]),
        ),
    ]
}
