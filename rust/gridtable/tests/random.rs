//! Random sheets, tables and registers against the second reading, all calls on
//! one workspace. In release these are 100,000 sheets; a debug build, in which
//! the second reading is slow, takes one in ten.

mod common;

use common::{answer, sheet_lines};
use gridtable::{
    CellLineEnd, Fragment, FragmentPlaces, LineEnds, SourceLine, Step, Table, Workspace,
    cell_fragment, is_rule, share, trim_end,
};
use paper::make::{self, Rng};
use paper::{cut, ends, layout, page, positions, redraw, set, sheet::Sheet};

const SHEETS: usize = if cfg!(debug_assertions) {
    10_000
} else {
    100_000
};
const TABLES: usize = SHEETS / 4;
const REGISTERS: usize = SHEETS / 4;
/// A sheet is made for each seed apart, so a failure names the seed alone.
const THREADS: u64 = 2;

/// Runs `one` for each seed, on threads, with a workspace each.
fn each(count: usize, one: fn(u64, &mut Workspace)) {
    std::thread::scope(|scope| {
        for first in 0..THREADS {
            scope.spawn(move || {
                let mut workspace = Workspace::new();
                for seed in (first..count as u64).step_by(THREADS as usize) {
                    one(seed, &mut workspace);
                }
            });
        }
    });
}

#[test]
fn random_sheets_are_answered_as_the_second_reading_answers() {
    each(SHEETS, |seed, workspace| {
        let mut rng = Rng::new(seed);
        let mut sheet = make::sheets::sheet(&mut rng);
        // The crate can't be handed sizes that contradict each other.
        while sheet.check_sizes().is_err() {
            sheet = make::sheets::sheet(&mut rng);
        }
        reads(seed, &sheet, workspace);
        redraws(seed, &sheet, &mut rng, workspace);
        places(seed, &sheet, &mut rng, workspace);
        rules(seed, &sheet);
    });
}

/// Layout, table and cells.
fn reads(seed: u64, sheet: &Sheet, workspace: &mut Workspace) {
    let lines = sheet_lines(sheet);
    let expected = layout::read(sheet, layout::Space::ENOUGH);
    let laid = answer(workspace.layout(&lines));
    let read = answer(workspace.read(&lines));
    let expected = match expected {
        Err(refusal) => {
            assert_eq!(laid, Err(refusal), "seed {seed}");
            assert_eq!(read, Err(refusal), "seed {seed}");
            return;
        }
        Ok(expected) => expected,
    };
    assert_eq!(laid, Ok(common::layout(&expected)), "seed {seed}");
    let table = cut::table_of(sheet, &expected);
    assert_eq!(read.unwrap(), common::table(&table).unwrap(), "seed {seed}");

    let k = seed as usize % (expected.cells.len() + 1);
    let fragments = answer(workspace.cell(&lines, k));
    let Some(cell) = expected.cells.get(k) else {
        assert_eq!(fragments, paper::refuse(13, 0), "seed {seed}");
        return;
    };
    let top = expected.rows[cell.row].top;
    let fragments = fragments.unwrap();
    assert_eq!(fragments.len(), cell.inner.len(), "seed {seed}");
    for ((fragment, &range), r) in fragments.iter().zip(&cell.inner).zip(top + 1..) {
        let line = cut::Line {
            text: sheet.line(r),
            line: r,
            byte: 0,
            column: sheet.columns[r],
        };
        let expected = cut::cut(&line, range, cell.left).unwrap();
        let place = (fragment.line, fragment.byte, fragment.column);
        let expected_place = (
            expected.line as u32,
            expected.byte as u32,
            expected.column as u16,
        );
        assert_eq!(place, expected_place, "seed {seed}");
        assert_eq!(fragment.text, &line.text[expected.start..expected.end]);
        assert_eq!(fragment.text.as_ptr(), line.text[expected.start..].as_ptr());
        // The same line cut alone, at another place of a document.
        let source = SourceLine {
            line: lines[r],
            number: r as u32 + 5,
            table_byte: 9,
        };
        let alone = cell_fragment(source, range.0..range.1, cell.left as u16);
        let moved = Fragment {
            line: fragment.line + 5,
            byte: fragment.byte + 9,
            ..*fragment
        };
        assert_eq!(alone, Ok(moved), "seed {seed}");
    }
}

/// From the sheet to its redrawing, in one call and in two.
fn redraws(seed: u64, sheet: &Sheet, rng: &mut Rng, workspace: &mut Workspace) {
    let lines = sheet_lines(sheet);
    let origin = rng.pick(&[0, 0, 3, 255, 256]);
    let at_once = workspace.redraw_sheet(&lines, origin as u16);
    let table = match cut::read_table(sheet) {
        Err(refusal) => {
            let refused = at_once.unwrap_err();
            assert_eq!(refused.step, Step::Reading, "seed {seed}");
            assert_eq!(
                answer::<()>(Err(refused.refusal)),
                Err(refusal),
                "seed {seed}"
            );
            return;
        }
        Ok(table) => table,
    };
    let expected = redraw::redraw(&table, origin, redraw::Space::ENOUGH);
    let in_two = workspace.redraw(&common::table(&table).unwrap(), origin as u16);
    match &at_once {
        Ok(drawing) => assert_eq!(Ok(drawing), in_two.as_ref(), "seed {seed}"),
        Err(refused) => {
            assert_eq!(refused.step, Step::Redraw, "seed {seed}");
            assert_eq!(Err(refused.refusal), in_two, "seed {seed}");
        }
    }
    let drawn = answer(in_two).map(|drawing| common::drawn(&drawing));
    assert_eq!(drawn, expected, "seed {seed}");
}

fn places(seed: u64, sheet: &Sheet, rng: &mut Rng, workspace: &mut Workspace) {
    let (numbers, bytes) = make::sheets::places(rng, sheet.lines);
    let lines = sheet_lines(sheet);
    let placed: Vec<SourceLine<'_>> = lines
        .iter()
        .zip(numbers.iter().zip(&bytes))
        .map(|(&line, (&number, &byte))| SourceLine {
            line,
            number: number as u32,
            table_byte: byte as u32,
        })
        .collect();
    let expected = positions::positions(sheet, &numbers, &bytes, layout::Space::ENOUGH);
    let given = answer(workspace.positions(&placed));
    let k = seed as usize % 5;
    let of_cell = answer(workspace.cell_position(&placed, k));
    match expected {
        Err(refusal) => {
            assert_eq!(given, Err(refusal), "seed {seed}");
            assert_eq!(of_cell, Err(refusal), "seed {seed}");
        }
        Ok((_, expected)) => {
            let given = given.unwrap();
            match given.cells.get(k) {
                Some(&position) => assert_eq!(of_cell, Ok(position), "seed {seed}"),
                None => assert_eq!(of_cell, paper::refuse(13, 0), "seed {seed}"),
            }
            assert_eq!(common::positions(&given), expected, "seed {seed}");
        }
    }
}

fn rules(seed: u64, sheet: &Sheet) {
    for r in 0..sheet.lines {
        let line = sheet.line(r);
        let trimmed = trim_end(line);
        assert_eq!(trimmed, set::trimmed(line), "seed {seed}");
        assert_eq!(trimmed.as_ptr(), line.as_ptr(), "seed {seed}");
        for fill in [b'-', b'='] {
            assert_eq!(is_rule(line, fill), set::is_rule(line, fill), "seed {seed}");
            assert_eq!(
                is_rule(trimmed, fill),
                set::is_rule(trimmed, fill),
                "seed {seed}"
            );
        }
    }
}

#[test]
fn random_tables_are_answered_as_the_second_reading_answers() {
    each(TABLES, |seed, workspace| {
        let mut rng = Rng::new(seed + 1_000_000_000);
        let (given, origin) = make::tables::table(&mut rng);
        let Some(table) = common::table(&given) else {
            return;
        };
        let expected = redraw::redraw(&given, origin, redraw::Space::ENOUGH);
        let drawn = answer(workspace.redraw(&table, origin as u16));
        let drawn = drawn.map(|drawing| common::drawn(&drawing));
        assert_eq!(drawn, expected, "seed {seed}");
        pages(seed, &given, &table, workspace);
    });
}

/// The page with escaped lines, and with inner bytes of the caller's.
fn pages(seed: u64, given: &paper::table::Table, table: &Table, workspace: &mut Workspace) {
    let widths = seed.is_multiple_of(2);
    let mut signs = table.clone();
    for byte in signs
        .cells
        .iter_mut()
        .flat_map(|cell| cell.lines.iter_mut().flatten())
    {
        *byte = match *byte {
            b'a' => b'&',
            b'b' | b'x' => b'<',
            b'c' | b'|' => b'>',
            other => other,
        };
    }
    let escaped: Vec<Vec<u8>> = signs
        .cells
        .iter()
        .map(|cell| escaped(&cell.lines))
        .collect();
    let expected = page::page(&page_table(given, &escaped), widths, usize::MAX);
    let written = answer(workspace.to_html(&signs, widths));
    assert_eq!(
        written.map(|page| page.into_bytes()),
        expected,
        "seed {seed}"
    );

    let own: Vec<Vec<u8>> = (0..table.cells.len())
        .map(|k| vec![b'<', k as u8])
        .collect();
    let mut next = own.iter();
    let expected = page::page(&page_table(given, &own), widths, usize::MAX);
    let written = answer(workspace.to_html_with(table, widths, |_| next.next().unwrap()));
    assert_eq!(
        written.map(|page| page.into_bytes()),
        expected,
        "seed {seed}"
    );
}

/// By replacing sign for sign in the joined lines, which the crate does not do.
fn escaped(lines: &[Vec<u8>]) -> Vec<u8> {
    let names = [
        (b'&', "&amp;"),
        (b'<', "&lt;"),
        (b'>', "&gt;"),
        (b'\n', "<br />\n"),
    ];
    let replaced = |text: Vec<u8>, (sign, name): (u8, &str)| {
        let parts: Vec<&[u8]> = text.split(|&b| b == sign).collect();
        parts.join(name.as_bytes())
    };
    names.into_iter().fold(lines.join(&b'\n'), replaced)
}

fn page_table(table: &paper::table::Table, inner: &[Vec<u8>]) -> page::PageTable {
    page::PageTable {
        columns: table.columns,
        rows: table.rows,
        cells: table.cells,
        bytes: inner.concat().len(),
        alignments: table.alignments.clone(),
        widths: table.widths.clone(),
        sections: table.sections.clone(),
        places: table.places.clone(),
        lengths: inner.iter().map(Vec::len).collect(),
        inner: inner.concat(),
    }
}

#[test]
fn random_line_ends_are_answered_as_the_second_reading_answers() {
    each(REGISTERS, |seed, _| {
        let mut rng = Rng::new(seed + 2_000_000_000);
        let numbers = make::ends::Numbers::new(&mut rng);
        let mut register = LineEnds::new();
        let mut expected: Vec<ends::End> = vec![];
        for _ in 0..rng.below(12) {
            let end = numbers.end(&mut rng, 3);
            let added = ends::add(&expected, end);
            let given = answer(register.add(line_end(end)));
            assert_eq!(
                given,
                added.as_ref().map(|_| ()).map_err(|r| *r),
                "seed {seed}"
            );
            expected = added.unwrap_or(expected);
            let held: Vec<CellLineEnd> = expected.iter().map(|&end| line_end(end)).collect();
            assert_eq!(register.iter().collect::<Vec<_>>(), held, "seed {seed}");
            let (line, column) = numbers.asked(&mut rng);
            let found = ends::find(&expected, line, column);
            let given = answer(register.find(line as u32, column as u32));
            assert_eq!(
                given.map(|eol| eol.map(|eol| eol as usize)),
                found,
                "seed {seed}"
            );
        }
        let fragments = numbers.fragments(&mut rng);
        let places: FragmentPlaces = fragments
            .iter()
            .map(|&(l, b)| (l as u32, b as u32))
            .collect();
        let end = numbers.end(&mut rng, 4);
        let moved = ends::remap(end, &fragments).map(line_end);
        assert_eq!(answer(line_end(end).remap(&places)), moved, "seed {seed}");
    });
}

fn line_end((line, start, eol): ends::End) -> CellLineEnd {
    CellLineEnd {
        line: line as u32,
        start: start as u32,
        eol: eol as u32,
    }
}

#[test]
fn shares_are_those_of_the_second_reading() {
    for total in 0..=512 {
        for width in 0..=128 {
            let given = share(width, total);
            let expected = page::hundredths(width.into(), total as usize);
            assert_eq!(given.hundredths as usize, expected, "{width} of {total}");
            assert_eq!(given.percent.to_bits(), page::share(expected).to_bits());
        }
    }
}
