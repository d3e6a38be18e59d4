//! Redraw: the plain drawing with the refusals that the port adds.

use super::draw::{Canvas, Plan, lines_of};
use super::layout::{FOOT, HEAD, NONE};
use super::sheet::Sheet;
use super::table::Table;
use super::{Answer, limits, refuse, room, within};

/// Lengths of the output arrays.
#[derive(Clone, Copy, PartialEq, Eq, Debug)]
pub struct Space {
    pub lines: usize,
    pub bytes: usize,
}

impl Space {
    pub const ENOUGH: Space = Space {
        lines: usize::MAX,
        bytes: usize::MAX,
    };
}

pub fn redraw(table: &Table, origin: usize, space: Space) -> Answer<Sheet> {
    check_table(table, origin)?;
    check_foot(table)?;
    let plan = Plan::new(table);
    check_alignments(&plan)?;
    let canvas = sized_canvas(&plan, origin)?;
    for cell in 0..table.cells {
        if splits(&plan, &canvas, cell) {
            return refuse(11, cell);
        }
    }
    let sheet = drawn_sheet(&canvas, origin);
    room(space.lines, sheet.lines)?;
    room(space.bytes, sheet.bytes)?;
    Ok(sheet)
}

/// The plain drawing, without refusals 9, 10 and 11; a drawing past the
/// limits is a 2 here too.
pub fn plain(table: &Table, origin: usize) -> Answer<Sheet> {
    check_table(table, origin)?;
    let canvas = sized_canvas(&Plan::new(table), origin)?;
    Ok(drawn_sheet(&canvas, origin))
}

/// 13, 1, 2, 3, 8.
pub fn check_table(table: &Table, origin: usize) -> Answer<()> {
    table.check_sizes()?;
    table.check_limits(origin)?;
    table.check_characters()?;
    table.check_grid()
}

/// 9.
fn check_foot(table: &Table) -> Answer<()> {
    if table.sections.contains(&FOOT) && !table.sections.contains(&HEAD) {
        return refuse(9, 0);
    }
    Ok(())
}

/// 10.
fn check_alignments(plan: &Plan<'_>) -> Answer<()> {
    let corners = plan.corners_on(plan.alignment_line());
    for column in 0..plan.table.columns {
        if plan.table.alignments[column] == NONE {
            continue;
        }
        if !corners.contains(&plan.xs[column]) {
            return refuse(10, column);
        }
        for colon in plan.colons(column) {
            if !corners.contains(&(colon - 1)) && !corners.contains(&(colon + 1)) {
                return refuse(10, column);
            }
        }
    }
    Ok(())
}

/// The canvas, or 2 where the drawn size passes a limit.
fn sized_canvas(plan: &Plan<'_>, origin: usize) -> Answer<Canvas> {
    within(plan.width(), limits::WIDTH)?;
    within(plan.height(), limits::LINES)?;
    let canvas = plan.canvas(origin);
    let mut bytes = 0;
    for line in lines_of(&canvas) {
        within(line.len(), limits::LINE_BYTES)?;
        bytes += line.len();
    }
    within(bytes, limits::BYTES)?;
    Ok(canvas)
}

/// At some column strictly inside the cell, both borders have `+`, and every
/// line between has `|` or `+`.
fn splits(plan: &Plan<'_>, canvas: &Canvas, cell: usize) -> bool {
    let (top, left, bottom, right) = plan.borders(cell);
    let glyph = |y: usize, x: usize| canvas[y][x].sign;
    (left + 1..right).any(|x| {
        glyph(top, x) == Some('+')
            && glyph(bottom, x) == Some('+')
            && (top + 1..bottom).all(|y| matches!(glyph(y, x), Some('|' | '+')))
    })
}

fn drawn_sheet(canvas: &Canvas, origin: usize) -> Sheet {
    let lines: Vec<(Vec<u8>, usize)> = lines_of(canvas)
        .into_iter()
        .map(|line| (line, origin))
        .collect();
    Sheet::of(&lines)
}
