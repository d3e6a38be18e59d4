//! Tables: the redraw call.

use super::antt::{Case, Outputs, list, numbers, record};
use crate::given;
use crate::make::{self, Rng, edge};
use crate::paper::redraw::{self, Space};
use crate::paper::refuse;
use crate::paper::sheet::Sheet;
use crate::paper::table::Table;

pub const HEAD: &str = "\
use mathlib.Core.Path.{◌≡◌, refl}
use Rattle.std.specs.Prelude.{[], ◌∷◌, replicate}
use Rattle.grid.specs.Answer.{accept, refuse}
use Rattle.grid.specs.Flat.{TableSizes, TableArrays}
use Rattle.drawing.specs.RedrawCall.{RedrawSpace, redraw_answer, redraw_afterwards}
use Rattle.drawing.specs.Computing.{redrawing}
";

/// Larger ones take too long to compute.
const NUMBERS: usize = 800;

pub fn cases(rng: &mut Rng, n: usize) -> Vec<Option<Case>> {
    let mut fixed = edge::tables().into_iter();
    let mut cases = vec![];
    for i in 0..n {
        let (table, origin) = match fixed.next() {
            Some((table, _)) => (table, 0),
            None => make::tables::table(rng),
        };
        cases.push(small(&table).then(|| case(rng, i, &table, origin)));
    }
    cases
}

fn small(table: &Table) -> bool {
    let arrays: usize = table.arrays().iter().map(Vec::len).sum();
    arrays + table.widths.iter().sum::<usize>() <= NUMBERS
}

fn case(rng: &mut Rng, i: usize, table: &Table, origin: usize) -> Case {
    let mut answer = redraw::redraw(table, origin, Space::ENOUGH).inspect(|drawn| {
        assert_eq!(*drawn, given::draw(table, origin));
    });
    let mut case = Case::new("redrawing");
    let mut space = working_space(4096);
    if rng.once_in(16) {
        space = working_space(4095);
        answer = refuse(13, 0);
    }
    let names = ["columns", "rows", "cells", "lines", "bytes"];
    let sizes = numbers(&names, &table.sizes());
    case.name(&format!("sizes{i}"), "TableSizes", &sizes);
    let names = ["columns", "sections", "cells", "lengths", "text"];
    let arrays = table.arrays().map(|array| list(&array));
    case.name(
        &format!("table{i}"),
        "TableArrays",
        &record(&names, &arrays),
    );

    let expected = answer.map(|drawn| (drawn_sizes(&drawn), arrays_of(drawn)));
    let outputs = Outputs::new(rng, ["lengths", "columns", "text"], expected);
    case.name(&format!("space{i}"), "RedrawSpace", &space);
    let given = format!("space{i} {origin} sizes{i} table{i}");
    case.call(&format!("redraw-{i}"), "redraw", &given, &outputs);
    case
}

/// As the call names it, but for the rectangles'.
fn working_space(rects: usize) -> String {
    let names = [
        "starts", "ends", "firsts", "heights", "wides", "rects", "canvas",
    ];
    numbers(&names, &[16384, 16384, 1024, 1024, 1024, rects, 16384])
}

fn drawn_sizes(drawn: &Sheet) -> String {
    numbers(&["lines", "bytes"], &[drawn.lines, drawn.bytes])
}

fn arrays_of(drawn: Sheet) -> [Vec<usize>; 3] {
    let text = drawn.text.iter().map(|&b| b.into()).collect();
    [drawn.lengths, drawn.columns, text]
}
