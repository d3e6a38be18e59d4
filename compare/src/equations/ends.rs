//! The line-end register: adding, finding and remapping.

use super::antt::{Case, list, numbers, record};
use crate::make::Rng;
use crate::make::ends::Numbers;
use crate::paper::ends::{self, End};
use crate::paper::limits;
use crate::parser::grid_table;

pub const HEAD: &str = "\
use mathlib.Core.Path.{◌≡◌, refl}
use Rattle.std.specs.Prelude.{[], ◌∷◌, ◌++◌, replicate}
use Rattle.std.proofs.Math.Option.{none, some}
use Rattle.grid.specs.Answer.{accept, refuse}
use Rattle.sourcepos.specs.LineEndCalls.{Register, add_answer, add_afterwards, find_answer, remap_answer}
use Rattle.sourcepos.specs.Computing.{positions}
";

pub fn cases(rng: &mut Rng, n: usize) -> Vec<Option<Case>> {
    (0..n).map(|i| Some(case(rng, i))).collect()
}

fn end((line, start, eol): End) -> String {
    numbers(&["line", "start", "eol"], &[line, start, eol])
}

/// The register that holds these ends, its other entries all 9.
fn register(ends: &[End]) -> String {
    let rest = limits::REGISTER - ends.len();
    let array = |pick: fn(&End) -> usize| {
        let held: Vec<usize> = ends.iter().map(pick).collect();
        format!("({}) ++ replicate {rest} 9", list(&held))
    };
    let terms = [
        ends.len().to_string(),
        array(|end| end.0),
        array(|end| end.1),
        array(|end| end.2),
    ];
    record(&["count", "lines", "starts", "eols"], &terms)
}

fn case(rng: &mut Rng, i: usize) -> Case {
    let made = Numbers::new(rng);
    // Now and then a full register.
    let full = rng.once_in(50);
    let count = match full {
        true => limits::REGISTER,
        false => rng.between(0, 8),
    };
    let mut held: Vec<End> = (0..count).map(|_| made.end(rng, 2)).collect();
    if !full {
        held.extend(made.strays(rng));
    }

    let new = made.end(rng, 2);
    let added = ends::add(&held, new);
    let (line, column) = made.asked(rng);
    let found = ends::find(&held, line, column).inspect(|&found| {
        let rust = grid_table::find_line_ends(&held, &[(line, column)])[0];
        assert_eq!(rust, [found; 2]);
    });
    let fragments = made.fragments(rng);
    let moved = made.end(rng, 4);
    let remapped = ends::remap(moved, &fragments).inspect(|&to| {
        assert_eq!(grid_table::remap(moved, &fragments), to);
    });

    let mut case = Case::new("positions");
    case.name(&format!("register{i}"), "Register", &register(&held));
    let given = format!("register{i} ({})", end(new));
    let after = match &added {
        Ok(longer) => register(longer),
        Err(_) => format!("register{i}"),
    };
    let count = added.map(|longer| longer.len().to_string());
    case.answer(&format!("add-{i}"), &format!("add_answer {given}"), &count);
    let afterwards = format!("add_afterwards {given}");
    case.equation(&format!("add-{i}-after"), &afterwards, &after);

    let eol = found.map(|found| match found {
        Some(eol) => format!("some {eol}"),
        None => "none".to_string(),
    });
    let call = format!("find_answer register{i} {line} {column}");
    case.answer(&format!("find-{i}"), &call, &eol);

    let (lines, bytes): (Vec<usize>, Vec<usize>) = fragments.into_iter().unzip();
    let given = format!("{} ({}) ({})", lines.len(), list(&lines), list(&bytes));
    let call = format!("remap_answer {given} ({})", end(moved));
    case.answer(&format!("remap-{i}"), &call, &remapped.map(end));
    case
}
