//! Text that seeks the column lines of its own table: a border sign just where
//! the cell's borders above and below have a corner.

use super::sheets::Lines;
use super::text::{self, Kind};
use super::{Rng, tiling};
use crate::draw::{Plan, lines_of};
use crate::layout::NONE;
use crate::table::{Place, Table};

/// Signs that go on a border there, with marks and without.
const BARS: [&str; 7] = [
    "|",
    "|",
    "|",
    "+",
    "|\u{301}",
    "+\u{301}",
    "|\u{36F}\u{301}",
];
/// Signs that end it, a wide bar and a broken one among them.
const MISSES: [&str; 8] = ["", " ", "x", "-", ":", "\u{FF5C}", "\u{A6}", "\u{301}"];

type CellLines = Vec<Vec<u8>>;

/// A random table whose spanning cells seek.
pub fn table(rng: &mut Rng, origin: usize) -> Table {
    let mut table = blank(rng);
    fill(rng, &mut table, origin);
    table
}

/// A random tiling without text, most often with spans.
fn blank(rng: &mut Rng) -> Table {
    let (rows, columns) = (rng.between(2, 4), rng.between(2, 4));
    let spans = !rng.once_in(8);
    let places = tiling::tiling(rng, rows, columns, spans);
    let (rows, columns) = tiling::size(&places);
    let mut table = Table {
        columns,
        rows,
        cells: places.len(),
        alignments: vec![NONE; columns],
        widths: vec![1; columns],
        sections: tiling::sections(rng, &places),
        places,
        ..Table::default()
    };
    if rng.once_in(6) {
        let c = rng.below(columns);
        table.alignments[c] = rng.below(4);
    }
    table
}

/// Declared widths, then lines: first those of the cells that do not seek, so
/// that it is known where the column lines stand, then the others'.
pub fn fill(rng: &mut Rng, table: &mut Table, origin: usize) {
    for width in &mut table.widths {
        *width = rng.pick(&[0, 1, 1, 2, 3, 4, 6]);
    }
    let seeks: Vec<bool> = table
        .places
        .iter()
        .map(|p| p.colspan > 1 && !rng.once_in(4))
        .collect();
    let mut cells: Vec<CellLines> = vec![];
    for (place, &seeks) in table.places.iter().zip(&seeks) {
        cells.push(match seeks {
            true => vec![],
            false => short_lines(rng, table, place),
        });
    }
    let placed = with_lines(table, &cells);
    let plan = Plan::new(&placed);
    for (cell, _) in seeks.iter().enumerate().filter(|(_, seeks)| **seeks) {
        cells[cell] = seeking_lines(rng, &plan, cell, origin);
    }
    *table = with_lines(table, &cells);
}

/// The table with these lines in its cells.
fn with_lines(table: &Table, cells: &[CellLines]) -> Table {
    let mut filled = Table {
        places: vec![],
        ..table.clone()
    };
    for (place, lines) in table.places.iter().zip(cells) {
        let place = Place {
            lines: lines.len(),
            ..*place
        };
        filled.add_cell(place, lines);
    }
    filled
}

/// Lines that most often fit the declared width.
fn short_lines(rng: &mut Rng, table: &Table, place: &Place) -> CellLines {
    let kind = rng.pick(&[Kind::Plain, Kind::Signs, Kind::Mixed]);
    let fitting = table.widths[place.column].saturating_sub(1);
    let count = rng.pick(&[0, 0, 1, 1, 1, 2]);
    let mut lines = vec![];
    for _ in 0..count {
        let characters = match rng.below(8) {
            0 => rng.between(0, 5),
            _ => rng.between(0, fitting),
        };
        lines.push(text::line(rng, kind, characters).into_bytes());
    }
    lines
}

/// A column line at which both borders have a corner, or any column inside.
fn target(rng: &mut Rng, plan: &Plan<'_>, cell: usize) -> usize {
    let (top, left, bottom, right) = plan.borders(cell);
    let below = plan.corners_on(bottom);
    let mut corners = plan.corners_on(top);
    corners.retain(|x| left + 1 < *x && *x < right && below.contains(x));
    if corners.is_empty() || rng.once_in(16) {
        rng.between(left + 2, right - 1)
    } else {
        rng.pick(&corners)
    }
}

/// A bar on the column line on every inner line, or on all but one.
fn seeking_lines(rng: &mut Rng, plan: &Plan<'_>, cell: usize, origin: usize) -> CellLines {
    let (top, left, bottom, right) = plan.borders(cell);
    let x = target(rng, plan, cell);
    let kind = rng.pick(&[Kind::Plain, Kind::Signs, Kind::Mixed, Kind::Mixed]);
    let missed = match rng.below(3) {
        0 => rng.between(top + 1, bottom - 1),
        _ => bottom,
    };
    let mut lines = vec![];
    for y in top + 1..bottom {
        let sign = if y == missed {
            rng.pick(&MISSES)
        } else {
            rng.pick(&BARS)
        };
        let mut line = text::filling(rng, kind, origin + left + 2, x - left - 2);
        line += sign;
        if rng.once_in(2) {
            let columns = rng.below(right - x);
            line += &text::filling(rng, kind, origin + x + 1, columns);
        }
        lines.push(line.into_bytes());
    }
    lines
}

/// A drawing whose spanning cells have their text one column further left than
/// a redrawing has it, so that their bars only then meet the column line.
pub fn sheet(rng: &mut Rng, column: usize) -> Lines {
    let mut table = blank(rng);
    for width in &mut table.widths {
        *width = rng.between(1, 5);
    }
    let plan = Plan::new(&table);
    let mut lines = lines_of(&plan.canvas(column));
    // On a line with text a byte is no longer a column.
    let mut written = vec![false; lines.len()];
    for cell in 0..table.cells {
        let (top, left, bottom, right) = plan.borders(cell);
        if table.places[cell].colspan == 1 || written[top + 1..bottom].contains(&true) {
            continue;
        }
        let x = target(rng, &plan, cell);
        let missed = rng.between(top + 1, bottom + 1);
        for y in top + 1..bottom {
            let sign = if y == missed { "x" } else { rng.pick(&BARS) };
            let text = shifted(rng, column + left + 1, x - left - 2, sign, right - x);
            lines[y].splice(left + 1..right, text.bytes());
            written[y] = true;
        }
    }
    lines.into_iter().map(|line| (line, column)).collect()
}

/// A sign behind so many columns of text that does not start blank, then text
/// up to the right border.
fn shifted(rng: &mut Rng, column: usize, before: usize, sign: &str, after: usize) -> String {
    let mut text = String::new();
    if before > 0 {
        text.push('x');
        text += &text::filling(rng, Kind::Mixed, column + 1, before - 1);
    }
    text += sign;
    text + &text::filling(rng, Kind::Plain, column + before + 1, after)
}
