//! Drawings: layout, cutting, positions, and the table read drawn again.

use super::{Tally, tables};
use crate::given;
use crate::make::{self, Rng};
use crate::paper::cut::{self, Line};
use crate::paper::layout::{self, Layout, Space};
use crate::paper::positions;
use crate::paper::sheet::Sheet;
use crate::paper::{limits, listing, redraw, set};
use crate::parser::grid_table;

pub fn one(rng: &mut Rng, tally: &mut Tally) {
    let sheet = make::sheets::sheet(rng);
    let answer = layout::read(&sheet, Space::ENOUGH);
    tally.count("read", &answer);
    match &answer {
        Ok(read) => accepted(rng, tally, &sheet, read),
        Err(refusal) => {
            // The Rust knows no limits and takes only UTF-8.
            if matches!(refusal.number, 4..=7) {
                let rust = given::layout(&sheet);
                let agrees = match &rust {
                    None => true,
                    Some(read) => refusal.number == 7 && read.cells.len() > limits::CELLS,
                };
                if !agrees {
                    tally.differ("layout", &sheet, &answer, &rust);
                }
            }
        }
    }
    list(tally, &sheet);
    rules(tally, &sheet);
}

fn accepted(rng: &mut Rng, tally: &mut Tally, sheet: &Sheet, read: &Layout) {
    let rust = given::layout(sheet);
    if rust.as_ref() != Some(read) {
        tally.differ("layout", sheet, read, &rust);
        return;
    }
    short_space(rng, tally, sheet, read);
    place(rng, tally, sheet, read);

    let table = cut::table_of(sheet, read);
    let origin = sheet.columns[0];
    if let Err(refusal) = redraw::check_table(&table, origin) {
        tally.differ("a table read is a table", sheet, &refusal, &());
        return;
    }
    tables::round_trip(tally, &table, origin);
}

/// One output array too short by one.
fn short_space(rng: &mut Rng, tally: &mut Tally, sheet: &Sheet, read: &Layout) {
    let mut space = Space {
        columns: read.columns.len(),
        rows: read.rows.len(),
        cells: read.cells.len(),
        inner: read.cells.iter().map(|c| c.inner.len()).sum(),
    };
    if layout::read(sheet, space).is_err() {
        tally.differ("exact space", sheet, &space, &());
    }
    match rng.below(4) {
        0 => space.columns -= 1,
        1 => space.rows -= 1,
        2 => space.cells -= 1,
        _ if space.inner > 0 => space.inner -= 1,
        _ => return,
    }
    let answer = layout::read(sheet, space);
    tally.count("read", &answer);
    if answer.err().map(|r| r.number) != Some(12) {
        tally.differ("short space", sheet, &space, &());
    }
}

/// Positions and cut lines, as `build_grid_table` has them.
fn place(rng: &mut Rng, tally: &mut Tally, sheet: &Sheet, read: &Layout) {
    let (numbers, bytes) = make::sheets::places(rng, sheet.lines);
    let answer = positions::positions(sheet, &numbers, &bytes, Space::ENOUGH);
    tally.count("positions", &answer);
    let Ok((_, paper)) = answer else {
        return;
    };
    let built = given::build(sheet, &numbers, &bytes).unwrap();
    let rust = given::positions(&built);
    if paper != rust {
        tally.differ("positions", &(sheet, &numbers, &bytes), &paper, &rust);
    }
    for (cell, (_, rust)) in read.cells.iter().zip(&built.cells) {
        let top = read.rows[cell.row].top;
        for (i, &range) in cell.inner.iter().enumerate() {
            let r = top + 1 + i;
            let line = Line {
                text: sheet.line(r),
                line: numbers[r],
                byte: bytes[r],
                column: sheet.columns[r],
            };
            let cut = cut::cut(&line, range, cell.left).unwrap();
            let text = String::from_utf8(line.text[cut.start..cut.end].to_vec()).unwrap();
            let paper = (text, cut.line, cut.byte, cut.column);
            if paper != rust[i] {
                tally.differ("cut", &(line, range, cell.left), &paper, &rust[i]);
            }
        }
    }
}

/// The listing of the text with line feeds agrees with reading at column 0.
fn list(tally: &mut Tally, sheet: &Sheet) {
    if sheet.check_sizes().is_err() {
        return;
    }
    let mut input = vec![];
    for r in 0..sheet.lines {
        input.extend(sheet.line(r));
        input.push(b'\n');
    }
    let mut flat = sheet.clone();
    flat.columns.fill(0);
    let expected = match layout::read(&flat, Space::ENOUGH) {
        Ok(read) => listing::listed(&read),
        Err(refusal) => format!("refused {} {}\n", refusal.number, refusal.place),
    };
    let listed = listing::listing(&input);
    if listed != expected {
        tally.differ("listing", sheet, &listed, &expected);
    }
}

/// Trimming and rules on each line.
fn rules(tally: &mut Tally, sheet: &Sheet) {
    if sheet.check_sizes().is_err() {
        return;
    }
    for r in 0..sheet.lines {
        let Ok(line) = std::str::from_utf8(sheet.line(r)) else {
            continue;
        };
        let rust = grid_table::trim_end(line);
        if set::trimmed(line.as_bytes()) != rust.as_bytes() {
            tally.differ("trim_end", &line, &(), &rust);
        }
        for fill in *b"-=" {
            let paper = set::is_rule(rust.as_bytes(), fill);
            if paper != grid_table::is_rule(rust, fill) {
                tally.differ("is_rule", &(line, fill), &paper, &!paper);
            }
        }
    }
}
