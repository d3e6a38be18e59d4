//! comrak's `layout` and `format_grid_table` over this crate, run on the example
//! sheets and on the eleven cases that the rules name.
//!
//! ```sh
//! cargo run --example dropin
//! ```

/// What comrak keeps: the values of its nodes, and the formatter's cells.
mod comrak {
    pub use gridtable::{GridTableSection, TableAlignment};

    pub struct GridTableColumn {
        pub alignment: TableAlignment,
        pub width: usize,
    }

    pub struct NodeGridTableCell {
        pub column: usize,
        pub colspan: usize,
        pub rowspan: usize,
    }

    pub struct Rect {
        pub top: usize,
        pub left: usize,
        pub bottom: usize,
        pub right: usize,
        pub lines: Vec<String>,
    }
}

/// What stands in the place of comrak's two functions.
mod dropin {
    use crate::comrak::{GridTableColumn, GridTableSection, NodeGridTableCell, Rect};
    use gridtable::{Cell, Column, Drawing, Layout, Line, Refusal, Table, TableCell};

    /// A number that fits no array passes a limit, or leaves the grid.
    pub fn entry(number: usize) -> u16 {
        u16::try_from(number).unwrap_or(u16::MAX)
    }

    pub fn layout(lines: &[Line<'_>]) -> Option<Layout> {
        gridtable::layout(lines).ok()
    }

    pub fn column(column: &Column) -> GridTableColumn {
        GridTableColumn {
            alignment: column.alignment,
            width: column.width.into(),
        }
    }

    pub fn value(cell: &Cell) -> NodeGridTableCell {
        NodeGridTableCell {
            column: cell.column.into(),
            colspan: cell.colspan.into(),
            rowspan: cell.rowspan.into(),
        }
    }

    /// From the cells' lines to the rows of the canvas.
    pub fn format_grid_table(
        columns: &[GridTableColumn],
        sections: &[GridTableSection],
        cells: &[Rect],
        origin: usize,
    ) -> Result<Drawing, Refusal> {
        let column = |c: &GridTableColumn| Column {
            alignment: c.alignment,
            width: entry(c.width),
        };
        let cell = |c: &Rect| {
            TableCell::new(entry(c.top), entry(c.left), c.lines.clone())
                .spanning(entry(c.right - c.left), entry(c.bottom - c.top))
        };
        let table = Table {
            columns: columns.iter().map(column).collect(),
            sections: sections.to_vec(),
            cells: cells.iter().map(cell).collect(),
        };
        table.redraw(entry(origin))
    }
}

use comrak::{GridTableColumn, GridTableSection, Rect, TableAlignment};
use gridtable::{Layout, Line, SourceLine, cell_fragment, share};
use std::fs;
use std::path::Path;

/// Each cell's lines, cut as comrak's `build_grid_table` does.
fn rects(lines: &[Line<'_>], layout: &Layout) -> Vec<Rect> {
    let mut rects = vec![];
    for (r, row) in layout.rows.iter().enumerate() {
        for cell in &row.cells {
            let inner = cell.content.iter().zip(&lines[row.top + 1..]);
            let cut = inner.map(|(range, &line)| {
                let line = SourceLine {
                    line,
                    number: 0,
                    table_byte: 0,
                };
                let fragment = cell_fragment(line, range.clone(), cell.left).unwrap();
                String::from_utf8_lossy(fragment.text).into_owned()
            });
            let value = dropin::value(cell);
            rects.push(Rect {
                top: r,
                left: value.column,
                bottom: r + value.rowspan,
                right: value.column + value.colspan,
                lines: cut.collect(),
            });
        }
    }
    rects
}

/// The drawing's text, or the refusal in words.
fn text(
    columns: &[GridTableColumn],
    sections: &[GridTableSection],
    cells: &[Rect],
) -> Result<String, String> {
    let drawing = dropin::format_grid_table(columns, sections, cells, 0);
    drawing
        .map(|drawing| drawing.to_string())
        .map_err(|refusal| refusal.to_string())
}

/// A sheet, through layout and formatter.
fn redrawn(sheet: &str) -> Result<String, String> {
    let lines: Vec<Line<'_>> = sheet.lines().map(Line::from).collect();
    let layout = dropin::layout(&lines).ok_or("no table")?;
    let columns: Vec<GridTableColumn> = layout.columns.iter().map(dropin::column).collect();
    let sections: Vec<GridTableSection> = layout.rows.iter().map(|row| row.section).collect();
    text(&columns, &sections, &rects(&lines, &layout))
}

/// A cell of one row: its row, its columns from left to right, and its lines.
type OneRow<'t> = (usize, usize, usize, &'t [&'t str]);

/// A table of columns of declared width 1 and Body rows.
fn drawn(columns: usize, rows: usize, cells: &[OneRow<'_>]) -> Result<String, String> {
    let column = |_| GridTableColumn {
        alignment: TableAlignment::None,
        width: 1,
    };
    let rect = |&(top, left, right, lines): &OneRow<'_>| Rect {
        top,
        left,
        bottom: top + 1,
        right,
        lines: lines.iter().map(|line| line.to_string()).collect(),
    };
    let columns: Vec<GridTableColumn> = (0..columns).map(column).collect();
    let cells: Vec<Rect> = cells.iter().map(rect).collect();
    text(&columns, &vec![GridTableSection::Body; rows], &cells)
}

/// Rows a, b; lines over both columns; c, d.
fn three_rows(middle: &[&str]) -> Result<String, String> {
    let cells: [OneRow<'_>; 5] = [
        (0, 0, 1, &["a"]),
        (0, 1, 2, &["b"]),
        (1, 0, 2, middle),
        (2, 0, 1, &["c"]),
        (2, 1, 2, &["d"]),
    ];
    drawn(2, 3, &cells)
}

fn laid(lines: &[&str]) -> Layout {
    let lines: Vec<Line<'_>> = lines.iter().map(|&line| line.into()).collect();
    dropin::layout(&lines).unwrap()
}

fn examples() {
    let folder = Path::new(env!("CARGO_MANIFEST_DIR")).join("../../examples");
    let read = |name: &str| fs::read_to_string(folder.join(name)).unwrap();
    for name in ["list", "spans", "parts", "aligned", "japanese", "untidy"] {
        let sheet = read(&format!("{name}.txt"));
        let expected = match name {
            "untidy" => read("untidy.out"),
            _ => sheet.clone(),
        };
        assert_eq!(redrawn(&sheet), Ok(expected), "{name}");
        println!("{name}.txt: redrawn");
    }
}

fn cases() {
    let none = Err("no table".to_string());
    let table = |lines: &[&str]| -> Result<String, String> { Ok(lines.join("\n") + "\n") };
    assert_eq!(redrawn("+"), none, "case 1");
    let empty = &laid(&["+-+", "+-+"]).rows[0].cells;
    assert_eq!((empty.len(), empty[0].content.len()), (1, 0), "case 2");
    let plain = ["+---+---+", "| a | b |", "+---+---+"];
    assert_eq!(redrawn(&plain.join("\n")), table(&plain), "case 3");
    let narrow = laid(&["+-+", "+++", "+++"]);
    let widths: Vec<u16> = narrow.columns.iter().map(|c| c.width).collect();
    let cells: Vec<usize> = narrow.rows.iter().map(|row| row.cells.len()).collect();
    assert_eq!((widths, cells), (vec![0, 0], vec![1, 2]), "case 4");
    assert_eq!(redrawn("++\n++"), none, "case 5");
    assert_eq!(redrawn("+::+"), none, "case 6");
    assert!(gridtable::is_rule("+:-:+", b'-'), "case 6");
    let head = &laid(&["+--+", "| a|", "+==+"]).rows;
    assert_eq!(head.len(), 1, "case 7");
    assert_eq!(head[0].section, GridTableSection::Head, "case 7");
    let one = drawn(1, 1, &[(0, 0, 1, &["ab"])]);
    assert_eq!(one, table(&["+---+", "| ab|", "+---+"]), "case 8");
    let split = three_rows(&["x|y"]).unwrap_err();
    assert!(split.contains("refusal 11, cell 2"), "case 9");
    assert!(three_rows(&["x|y", "z"]).is_ok(), "case 10");
    let shares = [share(1, 3).hundredths, share(2, 3).hundredths];
    assert_eq!(shares, [3_333, 6_667], "case 11");
    println!("11 cases: as named");
}

fn main() {
    examples();
    cases();
}
