//! Drawings: the layout, table, cell and positions calls.

use super::antt::{Case, Outputs, bytes, list, numbers, record};
use crate::library::{COUNT_SPACE, RECT_SPACE, SLOT_SPACE, START_SPACE};
use crate::make::{self, Rng, edge};
use crate::paper::layout::Layout;
use crate::paper::positions::{self, Position, Positions};
use crate::paper::sheet::Sheet;
use crate::paper::table::Table;
use crate::paper::{Answer, cut, refuse};
use crate::{against, given, paper};

pub const HEAD: &str = "\
use mathlib.Core.Path.{◌≡◌, refl}
use Rattle.std.specs.Prelude.{[], ◌∷◌, replicate}
use Rattle.grid.specs.Answer.{accept, refuse}
use Rattle.grid.specs.Flat.{FlatDrawing}
use Rattle.grid.specs.LayoutCall.{LayoutSpace, layout_answer, layout_afterwards}
use Rattle.grid.specs.TableCall.{TableSpace, table_answer, table_afterwards, cell_answer, cell_afterwards}
use Rattle.sourcepos.specs.PositionsCall.{FlatPlaced, positions_answer, positions_afterwards, cell_position_answer}
use Rattle.sourcepos.specs.Computing.{positions}
";

/// Larger ones take too long to compute.
const BYTES: usize = 800;

/// Working space of all calls, and of the table call besides.
const SPACE: [usize; 5] = [SLOT_SPACE, SLOT_SPACE, SLOT_SPACE, SLOT_SPACE, RECT_SPACE];
const TABLE_SPACE: [usize; 2] = [START_SPACE, COUNT_SPACE];

pub fn cases(rng: &mut Rng, n: usize) -> Vec<Option<Case>> {
    let mut fixed = edge::sheets().into_iter();
    let mut cases = vec![];
    for i in 0..n {
        let sheet = match fixed.next() {
            Some((sheet, _)) => sheet,
            None => make::sheets::sheet(rng),
        };
        let small = sheet.text.len() + sheet.lengths.len() <= BYTES;
        cases.push(small.then(|| case(rng, i, &sheet)));
    }
    cases
}

/// What the Rust reads, or the refusal.
struct Read {
    layout: Layout,
    table: Table,
    /// Line, start, end and column of each cut line of each cell.
    cuts: Vec<Vec<usize>>,
}

fn read(sheet: &Sheet) -> Answer<Read> {
    let layout = against::answer(sheet).expect("the oracles agree")?;
    let table = given::table(sheet).unwrap();
    assert_eq!(table, cut::table_of(sheet, &layout));
    let places: Vec<usize> = (0..sheet.lines).collect();
    let built = given::build(sheet, &places, &vec![0; sheet.lines]).unwrap();
    let cuts = built.cells.iter().map(|(_, cuts)| {
        let four = |(text, line, byte, column): &(String, usize, usize, usize)| {
            [*line, *byte, byte + text.len(), *column]
        };
        cuts.iter().flat_map(four).collect()
    });
    Ok(Read {
        cuts: cuts.collect(),
        layout,
        table,
    })
}

fn case(rng: &mut Rng, i: usize, sheet: &Sheet) -> Case {
    let mut case = Case::new("positions");
    let mut space = SPACE;
    let mut read = read(sheet);
    let (lines, table_bytes) = make::sheets::places(rng, sheet.lengths.len());
    let mut found = placed(sheet, &lines, &table_bytes);
    if rng.once_in(16) {
        space[rng.below(5)] -= 1;
        read = refuse(13, 0);
        found = refuse(13, 0);
    }
    let arrays = [
        sheet.lines.to_string(),
        sheet.bytes.to_string(),
        list(&sheet.lengths),
        list(&sheet.columns),
        bytes(&sheet.text),
    ];
    let names = ["lines", "bytes", "lengths", "columns", "text"];
    case.name(
        &format!("sheet{i}"),
        "FlatDrawing",
        &record(&names, &arrays),
    );
    let names = ["glyphs", "offsets", "down", "right", "rects"];
    case.name(
        &format!("space{i}"),
        "LayoutSpace",
        &numbers(&names, &space),
    );
    layout(rng, &mut case, i, &read);
    table(rng, &mut case, i, &read);
    cells(rng, &mut case, i, &read);
    let drawing = [format!("sheet{i}"), list(&lines), list(&table_bytes)];
    let names = ["drawing", "numbers", "table_bytes"];
    case.name(
        &format!("placed{i}"),
        "FlatPlaced",
        &record(&names, &drawing),
    );
    place(rng, &mut case, i, &found);
    case
}

fn layout(rng: &mut Rng, case: &mut Case, i: usize, read: &Answer<Read>) {
    let expected = read.as_ref().map_err(|&refusal| refusal).map(|read| {
        let names = ["width", "columns", "rows", "cells", "ranges"];
        (numbers(&names, &read.layout.sizes()), read.layout.arrays())
    });
    let names = ["columns", "rows", "cells", "ranges"];
    let outputs = Outputs::new(rng, names, expected);
    let given = format!("space{i} sheet{i}");
    case.call(&format!("layout-{i}"), "layout", &given, &outputs);
}

fn table(rng: &mut Rng, case: &mut Case, i: usize, read: &Answer<Read>) {
    let mut expected = read.as_ref().map_err(|&refusal| refusal).map(|read| {
        let names = ["columns", "rows", "cells", "lines", "bytes"];
        (numbers(&names, &read.table.sizes()), read.table.arrays())
    });
    let mut space = TABLE_SPACE;
    if rng.once_in(16) {
        space[rng.below(2)] -= 1;
        expected = refuse(13, 0);
    }
    let space = numbers(&["starts", "counts"], &space);
    let names = ["columns", "sections", "cells", "lengths", "text"];
    let outputs = Outputs::new(rng, names, expected);
    let given = format!("space{i} ({space}) sheet{i}");
    case.call(&format!("table-{i}"), "table", &given, &outputs);
}

/// A cell, and the number past the last.
fn cells(rng: &mut Rng, case: &mut Case, i: usize, read: &Answer<Read>) {
    let asked = match read {
        Ok(read) => vec![rng.below(read.cuts.len()), read.cuts.len()],
        Err(_) => vec![0],
    };
    for k in asked {
        let expected = match read {
            Err(refusal) => Err(*refusal),
            Ok(read) => match read.cuts.get(k) {
                None => refuse(13, 0),
                Some(cuts) => Ok(((cuts.len() / 4).to_string(), [cuts.clone()])),
            },
        };
        let outputs = Outputs::new(rng, [""], expected);
        let given = format!("space{i} 128 sheet{i} {k}");
        case.call(&format!("cell-{i}-{k}"), "cell", &given, &outputs);
    }
}

fn four(position: Position) -> [usize; 4] {
    let (line, column, end_line, end_column) = position;
    [line, column, end_line, end_column]
}

fn position(position: Position) -> String {
    let names = ["start_line", "start_column", "end_line", "end_column"];
    numbers(&names, &four(position))
}

fn place(rng: &mut Rng, case: &mut Case, i: usize, found: &Answer<Positions>) {
    let expected = found.as_ref().map_err(|&refusal| refusal).map(|found| {
        let sizes = [
            position(found.table),
            found.rows.len().to_string(),
            found.cells.len().to_string(),
        ];
        let flat = |all: &[Position]| all.iter().flat_map(|&p| four(p)).collect();
        let arrays = [flat(&found.rows), flat(&found.cells)];
        (record(&["table", "rows", "cells"], &sizes), arrays)
    });
    let outputs = Outputs::new(rng, ["rows", "cells"], expected);
    let given = format!("space{i} 128 placed{i}");
    case.call(&format!("positions-{i}"), "positions", &given, &outputs);

    let k = match found {
        Ok(found) => rng.below(found.cells.len() + 1),
        Err(_) => 0,
    };
    let one = match found {
        Err(refusal) => Err(*refusal),
        Ok(found) => match found.cells.get(k) {
            None => refuse(13, 0),
            Some(&cell) => Ok(position(cell)),
        },
    };
    let call = format!("cell_position_answer {given} {k}");
    case.answer(&format!("position-{i}-{k}"), &call, &one);
}

/// The Rust's positions, or the refusal.
fn placed(sheet: &Sheet, numbers: &[usize], bytes: &[usize]) -> Answer<Positions> {
    let enough = paper::layout::Space::ENOUGH;
    let (_, found) = positions::positions(sheet, numbers, bytes, enough)?;
    let rust = given::build(sheet, numbers, bytes).unwrap();
    let rust = given::positions(&rust);
    assert_eq!(rust, found);
    Ok(rust)
}
