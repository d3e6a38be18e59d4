//! The cases of positions, of all and of one cell: the papers' sheets, each two
//! neighbours in the order of checks, the limits of drawings and of their line
//! and byte numbers, short arrays, and drawings of every kind.

use super::runs;
use crate::beside::positions::{Given, answer, four, numbers};
use crate::lists::layout::{Room, at_limits, contradictions, orders, packed, spaces, tabs};
use crate::lists::{FAR, List, refused};
use crate::make::sheets::{self, even};
use crate::make::{Rng, edge};
use crate::paper::positions::{Position, Positions};
use crate::paper::sheet::Sheet;
use crate::paper::{Answer, refuse};

/// Lengths of the working space and of the output arrays: glyphs, offsets,
/// down, right, rects, starts, rows, cells.
type Spaces = [usize; 8];

/// Those that the call names, and those of the largest results.
const ENOUGH: Spaces = [16_384, 16_384, 16_384, 16_384, 4_096, 128, 508, 4_096];
const WORKING: usize = 6;

pub fn cases(list: &mut List) {
    for (sheet, _) in edge::sheets() {
        list.placed(&given(&sheet));
    }
    for lines in edge::small_sheets() {
        list.placed(&given(&edge::sheet(lines)));
    }
    ordered(list);
    sizes(list);
    outputs(list);
    at_number_limits(list);
    let limits = at_limits();
    let short = limits.iter().filter(|s| packed(&s.text).len() < 10_000);
    for sheet in short.chain(tabs().iter().step_by(9)) {
        list.placed(&given(sheet));
    }
    let mut rng = Rng::new(15);
    for _ in 0..320 {
        let sheet = sheets::sheet(&mut rng);
        // An array of line lengths holds numbers below 65,536.
        if sheet.lengths.iter().all(|&n| n < 65_536) {
            generated(list, &mut rng, &sheet);
        }
    }
}

/// Numbers and bytes that differ from line to line and from each other.
fn given(sheet: &Sheet) -> Given<'_> {
    let lines = u32::try_from(sheet.lengths.len()).unwrap();
    Given {
        sheet,
        numbers: (10..10 + lines).collect(),
        table_bytes: (0..lines).map(|r| 300 + 5 * r).collect(),
    }
}

impl List {
    fn positions(&mut self, given: &Given<'_>, spaces: Spaces) {
        let (case, answer) = all(given, spaces);
        self.add(case, answer);
    }

    fn cell_position(&mut self, given: &Given<'_>, spaces: Spaces, k: usize) {
        let (case, answer) = one(given, spaces, k);
        self.add(case, answer);
    }

    /// The positions of all; of the first cell, the last one and the one past it.
    fn placed(&mut self, given: &Given<'_>) {
        self.positions(given, ENOUGH);
        let mut cells = vec![0];
        if let Ok(found) = answered(given, ENOUGH) {
            cells.extend([found.cells.len() - 1, found.cells.len()]);
        }
        cells.dedup();
        for k in cells {
            self.cell_position(given, ENOUGH, k);
        }
    }
}

fn fields(given: &Given<'_>, spaces: Spaces) -> String {
    let sheet = given.sheet;
    let words = [
        sheet.lines.to_string(),
        sheet.bytes.to_string(),
        runs(&sheet.lengths),
        runs(&sheet.columns),
        packed(&sheet.text),
        runs(&given.numbers),
        runs(&given.table_bytes),
        match spaces {
            ENOUGH => "-".to_string(),
            _ => runs(&spaces),
        },
    ];
    words.join(" ")
}

/// The Rust's positions, or document 01's refusal.
fn answered(given: &Given<'_>, spaces: Spaces) -> Answer<Positions> {
    let short = |i: usize, need: usize| spaces[i] < need;
    if (0..WORKING).any(|i| short(i, ENOUGH[i])) {
        return refuse(13, 0);
    }
    let found = answer(given).expect("the oracles agree")?;
    if short(WORKING, 4 * found.rows.len()) || short(WORKING + 1, 4 * found.cells.len()) {
        return refuse(12, 0);
    }
    Ok(found)
}

fn all(given: &Given<'_>, spaces: Spaces) -> (String, String) {
    let flat = |all: &[Position]| -> String {
        let entries: Vec<u32> = all.iter().flat_map(|&p| four(p)).collect();
        runs(&entries)
    };
    let answer = match answered(given, spaces) {
        Ok(found) => [accepted(found.table), flat(&found.rows), flat(&found.cells)].join(" "),
        Err(refusal) => refused(refusal),
    };
    (format!("p {}", fields(given, spaces)), answer)
}

fn accepted(position: Position) -> String {
    let [a, b, c, d] = four(position);
    format!("accepted {a} {b} {c} {d}")
}

/// A cell's number is looked at after the drawing.
fn one(given: &Given<'_>, spaces: Spaces, k: usize) -> (String, String) {
    let position = answered(given, spaces).and_then(|found| match found.cells.get(k) {
        Some(&position) => Ok(position),
        None => refuse(13, 0),
    });
    let answer = position.map_or_else(refused, accepted);
    (format!("c {} {k}", fields(given, spaces)), answer)
}

/// Inputs on which a check and the next one both hold, and a line or byte
/// number past its limit with each of the others.
fn ordered(list: &mut List) {
    for (sheet, room) in orders() {
        let given = given(&sheet);
        list.positions(&given, spaces(room, ENOUGH, WORKING));
        // The output of one cell is no array.
        if !matches!(room, Room::NoOutput) {
            list.cell_position(&given, spaces(room, ENOUGH, WORKING), 0);
        }
        list.add_short(one(&given, ENOUGH, FAR));
    }
    let past = 65_536;
    for (sheet, _) in orders() {
        let mut given = given(&sheet);
        if let Some(number) = given.numbers.last_mut() {
            *number = past;
            list.add_short(all(&given, ENOUGH));
        }
    }
    let nothing = edge::sheet(&[]);
    let two = edge::sheet(&["+-+", "+-+"]);
    let mut none = ENOUGH;
    none[WORKING..].fill(0);
    for numbers in [vec![], vec![7], vec![past], vec![7, past]] {
        for table_bytes in [vec![], vec![past], vec![0, 7]] {
            for sheet in [&nothing, &two] {
                let given = Given {
                    sheet,
                    numbers: numbers.clone(),
                    table_bytes: table_bytes.clone(),
                };
                list.positions(&given, none);
                list.cell_position(&given, ENOUGH, 1);
            }
        }
    }
}

/// 13: sizes that the arrays contradict, numbers for more or fewer lines, each
/// working space one short, and empty; before 1.
fn sizes(list: &mut List) {
    let (right, sheets) = contradictions();
    for sheet in &sheets {
        list.placed(&given(sheet));
    }
    let changes: [fn(&mut Vec<u32>); 3] = [|n| n.push(1), |n| n.truncate(2), |n| n.clear()];
    for change in changes {
        let mut numbered = given(&right);
        change(&mut numbered.numbers);
        list.placed(&numbered);
        let mut placed = given(&right);
        change(&mut placed.table_bytes);
        list.placed(&placed);
    }
    let nothing = edge::sheet(&[]);
    for i in 0..WORKING {
        for short in [ENOUGH[i] - 1, 0] {
            let mut spaces = ENOUGH;
            spaces[i] = short;
            for sheet in [&right, &nothing] {
                list.positions(&given(sheet), spaces);
                list.cell_position(&given(sheet), spaces, 0);
            }
        }
    }
}

/// 12: each output array of just the result's length, one short, and empty.
fn outputs(list: &mut List) {
    let mut sheets: Vec<Sheet> = (edge::small_sheets().iter())
        .map(|lines| edge::sheet(lines))
        .collect();
    sheets.push(Sheet::of(&even(3, 2, 2, 3)));
    for sheet in &sheets {
        let given = given(sheet);
        let Ok(found) = answered(&given, ENOUGH) else {
            continue;
        };
        let mut exact = ENOUGH;
        exact[WORKING..].copy_from_slice(&[4 * found.rows.len(), 4 * found.cells.len()]);
        list.positions(&given, exact);
        for i in WORKING..exact.len() {
            for short in [exact[i] - 1, 0] {
                let mut spaces = exact;
                spaces[i] = short;
                list.positions(&given, spaces);
            }
        }
    }
}

/// Each line's number and table byte at the limit, one past it and far past it.
fn at_number_limits(list: &mut List) {
    let sheet = edge::sheet(&["+-+-+", "|a|b|", "+-+-+"]);
    for line in 0..sheet.lines {
        for number in [0, 65_535, 65_536, u32::MAX] {
            let mut numbered = given(&sheet);
            numbered.numbers[line] = number;
            let mut placed = given(&sheet);
            placed.table_bytes[line] = number;
            for given in [numbered, placed] {
                list.positions(&given, ENOUGH);
                list.cell_position(&given, ENOUGH, 1);
            }
        }
    }
}

/// The positions of all and of one cell, or of one past the last.
fn generated(list: &mut List, rng: &mut Rng, sheet: &Sheet) {
    let given = Given {
        sheet,
        numbers: numbers(rng, sheet.lengths.len()),
        table_bytes: numbers(rng, sheet.lengths.len()),
    };
    let cells = answered(&given, ENOUGH).map_or(0, |found| found.cells.len());
    list.add_short(all(&given, ENOUGH));
    list.add_short(one(&given, ENOUGH, rng.below(cells + 1)));
}
