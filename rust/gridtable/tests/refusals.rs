//! Every refusal, 1 to 14, with its number, place and kind.

mod common;

use gridtable::{
    CellLineEnd, Column, FragmentPlaces, GridTableSection, Line, LineEnds, Refusal, RefusalKind,
    SheetRefusal, SourceLine, Step, Table, TableAlignment, TableCell,
};
use gridtable::{cell, cell_fragment, layout, positions, redraw_sheet};

use GridTableSection::{Body, Foot, Head};
use RefusalKind::*;

fn read(lines: &[&str]) -> Refusal {
    let lines: Vec<Line<'_>> = lines.iter().map(|&line| line.into()).collect();
    let refusal = layout(&lines).unwrap_err();
    assert_eq!(Table::read(&lines).unwrap_err(), refusal);
    assert_eq!(cell(&lines, 0).unwrap_err(), refusal);
    let placed: Vec<SourceLine<'_>> = lines
        .iter()
        .map(|&line| SourceLine {
            line,
            number: 1,
            table_byte: 0,
        })
        .collect();
    assert_eq!(positions(&placed).unwrap_err(), refusal);
    let step = Step::Reading;
    let sheet = redraw_sheet(&lines, 0).unwrap_err();
    assert_eq!(sheet, SheetRefusal { step, refusal });
    refusal
}

fn table(columns: &[(TableAlignment, u16)], sections: &[GridTableSection]) -> Table {
    let columns = columns.iter();
    Table {
        columns: columns
            .map(|&(alignment, width)| Column { alignment, width })
            .collect(),
        sections: sections.to_vec(),
        cells: vec![],
    }
}

fn one_cell(section: GridTableSection, lines: &[&str]) -> Table {
    let mut table = table(&[(TableAlignment::None, 1)], &[section]);
    table
        .cells
        .push(TableCell::new(0, 0, lines.iter().copied()));
    table
}

fn is(refusal: Refusal, kind: RefusalKind, number: usize, place: usize) {
    assert_eq!(refusal.kind(), kind);
    assert_eq!((refusal.number(), refusal.place()), (number, place));
}

#[test]
fn reading_refuses_1_to_7() {
    is(read(&[]), Empty, 1, 0);
    is(read(&["+-+"; 129]), LimitPassed, 2, 0);
    let wide = format!("+{}+", "-".repeat(127));
    is(read(&[&wide, &wide]), LimitPassed, 2, 0);
    for outside in ["\u{20AC}", "\u{30FC}", "\u{3000}", "\r"] {
        is(read(&["+--+", outside]), CharacterOutsideSet, 3, 1);
    }
    is(read(&["x"]), FirstLineNoBorder, 4, 0);
    is(read(&["+-+", "|"]), LineShorterOrWider, 5, 1);
    is(read(&["+"]), NotPartedIntoCells, 6, 0);
    let (border, inner) = ("+-".repeat(32) + "+", "| ".repeat(32) + "|");
    let mut cells = vec![border.as_str()];
    for _ in 0..33 {
        cells.extend([inner.as_str(), &border]);
    }
    is(read(&cells), TooManyCells, 7, 0);
    assert_eq!(
        layout(&cells[..65].iter().map(|&l| l.into()).collect::<Vec<_>>())
            .unwrap()
            .rows
            .len(),
        32
    );
}

#[test]
fn bytes_that_are_not_utf_8_are_a_3() {
    let lines = [Line::from("+-+"), Line::from(&b"|\xFF|"[..])];
    is(layout(&lines).unwrap_err(), CharacterOutsideSet, 3, 1);
    let mut table = one_cell(Body, &["a"]);
    table.cells[0].lines.push(vec![0xFF]);
    is(table.redraw(0).unwrap_err(), CharacterOutsideSet, 3, 1);
}

/// Only a line's length fits no array, and passes a limit long before.
#[test]
fn a_line_too_long_for_the_arrays_is_a_2() {
    for length in [513, 65_535, 65_536, 200_000] {
        let line = "-".repeat(length);
        is(read(&["x", &line]), LimitPassed, 2, 0);
        is(
            one_cell(Body, &[&line]).redraw(0).unwrap_err(),
            LimitPassed,
            2,
            0,
        );
        let page = one_cell(Body, &[&line]).to_html(true);
        match length {
            513 => assert!(page.is_ok()),
            _ => is(page.unwrap_err(), LimitPassed, 2, 0),
        }
        // 1 comes first.
        let mut empty = one_cell(Body, &[&line]);
        empty.columns.clear();
        is(empty.redraw(0).unwrap_err(), Empty, 1, 0);
        is(empty.to_html(true).unwrap_err(), Empty, 1, 0);
    }
    let many = one_cell(Body, &[""; 65_536]);
    is(many.redraw(0).unwrap_err(), LimitPassed, 2, 0);
    is(many.to_html(true).unwrap_err(), LimitPassed, 2, 0);
}

#[test]
fn redraw_refuses_1_2_3_and_8_to_11() {
    is(Table::default().redraw(0).unwrap_err(), Empty, 1, 0);
    is(
        table(&[(TableAlignment::None, 1)], &[Body])
            .redraw(0)
            .unwrap_err(),
        Empty,
        1,
        0,
    );
    is(
        one_cell(Body, &["a"]).redraw(256).unwrap_err(),
        LimitPassed,
        2,
        0,
    );
    is(
        one_cell(Body, &[""; 129]).redraw(0).unwrap_err(),
        LimitPassed,
        2,
        0,
    );
    let mut wide = one_cell(Body, &["a"]);
    wide.columns[0].width = 128;
    is(wide.redraw(0).unwrap_err(), LimitPassed, 2, 0);
    is(
        one_cell(Body, &["x", "\u{20AC}"]).redraw(0).unwrap_err(),
        CharacterOutsideSet,
        3,
        1,
    );
    let mut crossing = table(&[(TableAlignment::None, 1)], &[Head, Body]);
    crossing
        .cells
        .push(TableCell::new(0, 0, [""]).spanning(1, 2));
    is(crossing.redraw(0).unwrap_err(), GridRuleBroken, 8, 0);
    is(crossing.to_html(false).unwrap_err(), GridRuleBroken, 8, 0);
    for (colspan, rowspan) in [(0, 1), (1, 0), (2, 1), (1, u16::MAX)] {
        let mut table = one_cell(Body, &["a"]);
        table.cells[0] = table.cells[0].clone().spanning(colspan, rowspan);
        is(table.redraw(0).unwrap_err(), GridRuleBroken, 8, 0);
    }
    is(
        one_cell(Foot, &["a"]).redraw(0).unwrap_err(),
        FootWithoutHead,
        9,
        0,
    );
    let mut hidden = table(
        &[(TableAlignment::None, 1), (TableAlignment::Left, 1)],
        &[Body; 2],
    );
    hidden.cells = vec![
        TableCell::new(0, 0, [""; 0]).spanning(2, 1),
        TableCell::new(1, 0, [""; 0]),
        TableCell::new(1, 1, [""; 0]),
    ];
    is(
        hidden.redraw(0).unwrap_err(),
        AlignedColumnWithoutCorner,
        10,
        1,
    );
    is(
        three_rows(&["x|y"]).redraw(0).unwrap_err(),
        CellWouldSplit,
        11,
        2,
    );
    assert!(three_rows(&["x|y", "z"]).redraw(0).is_ok());
}

fn three_rows(middle: &[&str]) -> Table {
    let mut table = table(&[(TableAlignment::None, 1); 2], &[Body; 3]);
    table.cells = vec![
        TableCell::new(0, 0, ["a"]),
        TableCell::new(0, 1, ["b"]),
        TableCell::new(1, 0, middle.iter().copied()).spanning(2, 1),
        TableCell::new(2, 0, ["c"]),
        TableCell::new(2, 1, ["d"]),
    ];
    table
}

#[test]
fn the_step_that_refused_is_named() {
    // The text is moved one column to the right, and its bar onto a corner.
    let split = [
        "+---+---+",
        "| a | b |",
        "+---+---+",
        "|xx|y   |",
        "+---+---+",
        "| c | d |",
        "+---+---+",
    ];
    let refused = redraw_sheet(&split.map(Line::from), 0).unwrap_err();
    assert_eq!(refused.step, Step::Redraw);
    is(refused.refusal, CellWouldSplit, 11, 2);
    let words = "redraw: a cell's text would be read as a border, and the cell would split \
        (refusal 11, cell 2 counted from 0)";
    assert_eq!(refused.to_string(), words);
    // 127 columns of width 0 are drawn with width 1.
    let (border, corners) = (format!("+{}+", "-".repeat(126)), "+".repeat(128));
    let narrow = [border.as_str(), &corners, &corners].map(Line::from);
    let refused = redraw_sheet(&narrow, 0).unwrap_err();
    assert_eq!(refused.step, Step::Redraw);
    is(refused.refusal, LimitPassed, 2, 0);
    let unread = redraw_sheet(&[], 256).unwrap_err();
    assert_eq!((unread.step, unread.refusal.number()), (Step::Reading, 1));
}

/// 12 is met by the page's buffer, and answered with twice the room.
#[test]
fn a_page_of_any_length_is_written() {
    for bytes in [0, 1_000, 1_024, 10_000, 32_768] {
        let table = one_cell(Body, &["a"]);
        let inner = vec![b'x'; bytes];
        let page = table.to_html_with(true, |_| inner.clone()).unwrap();
        assert!(page.as_bytes().len() > bytes);
        assert!(page.into_bytes().ends_with(b"</table>\n"));
    }
    let long = vec![b'x'; 32_769];
    let page = one_cell(Body, &["a"]).to_html_with(true, |_| long.clone());
    is(page.unwrap_err(), LimitPassed, 2, 0);
}

#[test]
fn arguments_that_contradict_each_other_are_a_13() {
    let lines = ["+-+", "|a|", "+-+"].map(Line::from);
    is(cell(&lines, 1).unwrap_err(), ArgumentsContradict, 13, 0);
    let line = SourceLine {
        line: Line::from("\u{E9}a"),
        number: 1,
        table_byte: 0,
    };
    #[allow(clippy::reversed_empty_ranges)]
    for range in [2..1, 0..4, 1..3, 0..1, 0..usize::MAX] {
        let refusal = cell_fragment(line, range, 0).unwrap_err();
        is(refusal, ArgumentsContradict, 13, 0);
    }
    is(
        cell_fragment(line, 0..3, 128).unwrap_err(),
        LimitPassed,
        2,
        0,
    );
}

#[test]
fn line_ends_refuse_13_2_and_14() {
    let end = |line, start, eol| CellLineEnd { line, start, eol };
    let mut ends = LineEnds::new();
    assert!(ends.is_empty());
    for wrong in [end(0, 1, 1), end(1, 0, 1), end(1, 2, 1)] {
        is(ends.add(wrong).unwrap_err(), ArgumentsContradict, 13, 0);
    }
    is(ends.add(end(65_536, 1, 1)).unwrap_err(), LimitPassed, 2, 0);
    is(ends.find(0, 1).unwrap_err(), ArgumentsContradict, 13, 0);
    is(ends.find(1, 65_536).unwrap_err(), LimitPassed, 2, 0);
    assert_eq!(ends.len(), 0);
    for i in 1..=1_024 {
        ends.add(end(1, i, i + 1)).unwrap();
    }
    is(ends.add(end(1, 1, 1)).unwrap_err(), RegisterFull, 14, 0);
    assert_eq!(ends.len(), 1_024);
    assert_eq!(ends.find(1, 7), Ok(Some(8)));
    assert_eq!(ends.find(2, 7), Ok(None));

    let places: FragmentPlaces = [(9, 10), (0, 0), (3, 65_535)].into_iter().collect();
    assert_eq!(end(1, 2, 3).remap(&places), Ok(end(9, 12, 13)));
    assert_eq!(end(2, 2, 3).remap(&places), Ok(end(0, 2, 3)));
    is(end(3, 1, 1).remap(&places).unwrap_err(), LimitPassed, 2, 0);
    is(
        end(4, 1, 1).remap(&places).unwrap_err(),
        ArgumentsContradict,
        13,
        0,
    );

    let mut ends = LineEnds::new();
    ends.add(end(1, 2, 3)).unwrap();
    let moved = ends.remap(&places).unwrap();
    assert_eq!(moved.iter().collect::<Vec<_>>(), [end(9, 12, 13)]);
    ends.add(end(2, 2, 3)).unwrap();
    is(ends.remap(&places).unwrap_err(), ArgumentsContradict, 13, 0);
}

/// The largest numbers that the types hold are answered, and nothing panics.
#[test]
fn the_largest_numbers_are_answered() {
    let lines = [Line::at("+-+", u16::MAX); 2];
    is(layout(&lines).unwrap_err(), LimitPassed, 2, 0);
    is(
        cell(&lines[..1], usize::MAX).unwrap_err(),
        LimitPassed,
        2,
        0,
    );
    let placed = [SourceLine {
        line: Line::from("+-+"),
        number: u32::MAX,
        table_byte: u32::MAX,
    }; 2];
    is(positions(&placed).unwrap_err(), LimitPassed, 2, 0);
    is(
        cell_fragment(placed[0], 0..1, u16::MAX).unwrap_err(),
        LimitPassed,
        2,
        0,
    );
    let mut largest = one_cell(Body, &["a"]);
    largest.cells[0] = TableCell::new(u16::MAX, u16::MAX, ["a"]).spanning(u16::MAX, u16::MAX);
    is(largest.redraw(0).unwrap_err(), GridRuleBroken, 8, 0);
    is(largest.to_html(true).unwrap_err(), GridRuleBroken, 8, 0);
    largest.columns[0].width = u16::MAX;
    is(largest.redraw(u16::MAX).unwrap_err(), LimitPassed, 2, 0);
    let end = CellLineEnd {
        line: u32::MAX,
        start: u32::MAX,
        eol: u32::MAX,
    };
    is(LineEnds::new().add(end).unwrap_err(), LimitPassed, 2, 0);
    is(
        end.remap(&FragmentPlaces::default()).unwrap_err(),
        ArgumentsContradict,
        13,
        0,
    );
    is(
        LineEnds::new().find(u32::MAX, u32::MAX).unwrap_err(),
        LimitPassed,
        2,
        0,
    );
}

#[test]
fn kinds_have_the_numbers_1_to_14_and_words() {
    let numbers: Vec<usize> = RefusalKind::ALL.iter().map(|kind| kind.number()).collect();
    assert_eq!(numbers, (1..=14).collect::<Vec<_>>());
    for kind in RefusalKind::ALL {
        assert!(!kind.to_string().is_empty());
    }
}
