//! The page call.

use super::antt::{Case, Outputs, bytes, list, numbers, record};
use crate::given;
use crate::make::{self, Rng};
use crate::paper::page::{self, PageTable};

pub const HEAD: &str = "\
use mathlib.Core.Path.{◌≡◌, refl}
use Rattle.std.specs.Prelude.{true, false, [], ◌∷◌, replicate}
use Rattle.grid.specs.Answer.{accept, refuse}
use Rattle.html.specs.PageCall.{PageSizes, PageArrays, page_answer, page_afterwards}
use Rattle.html.specs.Computing.{rendering}
";

/// Larger ones take too long to compute.
const NUMBERS: usize = 800;

pub fn cases(rng: &mut Rng, n: usize) -> Vec<Option<Case>> {
    let one = |i: usize| {
        let table = make::pages::table(rng);
        let size = cells(&table).len() + table.columns + table.sections.len() + table.inner.len();
        (size <= NUMBERS).then(|| case(rng, i, &table))
    };
    (0..n).map(one).collect()
}

/// Each cell's place and the length of its inner bytes.
fn cells(table: &PageTable) -> Vec<usize> {
    let places = table.places.iter().zip(&table.lengths);
    places
        .flat_map(|(p, &length)| [p.row, p.column, p.colspan, p.rowspan, length])
        .collect()
}

fn case(rng: &mut Rng, i: usize, table: &PageTable) -> Case {
    let widths = rng.once_in(2);
    let answer = page::page(table, widths, usize::MAX).inspect(|page| {
        // With a total of 0 the Rust prints NaN.
        let total: usize = table.widths.iter().sum();
        assert!(widths && total == 0 || *page == given::page(table, widths));
    });
    let mut case = Case::new("rendering");
    let sizes = [table.columns, table.rows, table.cells, table.bytes];
    let names = ["columns", "rows", "cells", "bytes"];
    case.name(&format!("sizes{i}"), "PageSizes", &numbers(&names, &sizes));
    let columns = table.alignments.iter().zip(&table.widths);
    let columns: Vec<usize> = columns.flat_map(|(&a, &w)| [a, w]).collect();
    let arrays = [
        list(&columns),
        list(&table.sections),
        list(&cells(table)),
        bytes(&table.inner),
    ];
    let names = ["columns", "sections", "cells", "inner"];
    case.name(&format!("table{i}"), "PageArrays", &record(&names, &arrays));

    let expected = answer.map(|page| {
        let page: Vec<usize> = page.iter().map(|&b| b.into()).collect();
        (page.len().to_string(), [page])
    });
    let outputs = Outputs::new(rng, [""], expected);
    let given = format!("{widths} sizes{i} table{i}");
    case.call(&format!("page-{i}"), "page", &given, &outputs);
    case
}
