//! Every example sheet, through every call.

mod common;

use common::{EXAMPLES, example, lines, sheet};
use gridtable::{SourceLine, Table, cell, cell_fragment, cell_position, layout, positions};
use gridtable::{redraw_sheet, trim_end};

#[test]
fn a_sheet_has_the_layout_that_is_listed() {
    for (name, [columns, rows, cells]) in EXAMPLES {
        let text = example(name);
        let layout = layout(&lines(&text)).unwrap();
        assert_eq!(layout.columns.len(), columns, "{name}");
        assert_eq!(layout.rows.len(), rows, "{name}");
        let count: usize = layout.rows.iter().map(|row| row.cells.len()).sum();
        assert_eq!(count, cells, "{name}");
        let read = paper::layout::read(&sheet(&lines(&text)), paper::layout::Space::ENOUGH);
        assert_eq!(layout, common::layout(&read.unwrap()), "{name}");
    }
}

#[test]
fn a_sheet_redraws_as_itself_or_as_its_out_file() {
    for (name, _) in EXAMPLES {
        let text = example(name);
        let expected = match name {
            "untidy.txt" => example("untidy.out"),
            _ => text.clone(),
        };
        let table = Table::read(&lines(&text)).unwrap();
        let drawing = table.redraw(0).unwrap();
        assert_eq!(drawing.to_string(), expected, "{name}");
        assert_eq!(redraw_sheet(&lines(&text), 0).unwrap(), drawing, "{name}");
        let again = Table::read(&drawing.lines()).unwrap();
        assert_eq!(again.sections, table.sections, "{name}");
        assert_eq!(again.cells, table.cells, "{name}");
        assert_eq!(again.redraw(0).unwrap(), drawing, "{name}");
    }
}

#[test]
fn a_cells_fragments_are_views_of_the_callers_text() {
    for (name, [_, _, cells]) in EXAMPLES {
        let text = example(name);
        let lines = lines(&text);
        let table = Table::read(&lines).unwrap();
        for k in 0..cells {
            let mut fragments = cell(&lines, k).unwrap();
            for fragment in &fragments {
                let line = lines[fragment.line as usize].text;
                let at = fragment.byte as usize;
                assert_eq!(fragment.text.as_ptr(), line[at..].as_ptr(), "{name} {k}");
            }
            while fragments.last().is_some_and(|f| f.text.is_empty()) {
                fragments.pop();
            }
            let texts: Vec<&[u8]> = fragments.iter().map(|f| f.text).collect();
            assert_eq!(texts, table.cells[k].lines, "{name} {k}");
        }
        assert_eq!(cell(&lines, cells).unwrap_err().number(), 13, "{name}");
    }
}

/// `cell_fragment` on a layout's ranges is `cell`, as in comrak.
#[test]
fn cutting_a_layouts_ranges_gives_the_cells_fragments() {
    for (name, _) in EXAMPLES {
        let text = example(name);
        let lines = lines(&text);
        let mut k = 0;
        for row in &layout(&lines).unwrap().rows {
            for one in &row.cells {
                let cut = one.content.iter().zip(row.top + 1..).map(|(range, r)| {
                    let line = SourceLine {
                        line: lines[r],
                        number: r as u32,
                        table_byte: 0,
                    };
                    cell_fragment(line, range.clone(), one.left).unwrap()
                });
                assert_eq!(cut.collect::<Vec<_>>(), cell(&lines, k).unwrap(), "{name}");
                k += 1;
            }
        }
    }
}

#[test]
fn positions_are_those_of_the_lines() {
    for (name, [_, rows, cells]) in EXAMPLES {
        let text = example(name);
        let lines = lines(&text);
        let placed: Vec<SourceLine<'_>> = lines
            .iter()
            .zip(5..)
            .map(|(&line, number)| SourceLine {
                line,
                number,
                table_byte: 3,
            })
            .collect();
        let positions = positions(&placed).unwrap();
        assert_eq!((positions.rows.len(), positions.cells.len()), (rows, cells));
        assert_eq!(positions.table.start.line, 5, "{name}");
        assert_eq!(positions.table.start.column, 4, "{name}");
        assert_eq!(positions.table.end.line as usize, 4 + lines.len(), "{name}");
        let end = trim_end(lines.last().unwrap().text).len() + 3;
        assert_eq!(positions.table.end.column as usize, end, "{name}");
        for (k, &position) in positions.cells.iter().enumerate() {
            assert_eq!(cell_position(&placed, k).unwrap(), position, "{name} {k}");
        }
        assert_eq!(cell_position(&placed, cells).unwrap_err().number(), 13);
    }
}

/// The document of the examples holds what the proved program `page` printed.
#[test]
fn the_page_is_that_of_the_program() {
    let text = example("untidy.txt");
    let table = Table::read(&lines(&text)).unwrap();
    let page = table.to_html(true).unwrap();
    let document = example("sheet.html");
    assert!(document.contains(&page.to_string()));
    let plain = table.to_html(false).unwrap();
    assert!(page.to_string().contains("<colgroup>"));
    assert!(!plain.to_string().contains("<colgroup>"));
}
