//! Reading: slots, tracing, and the table's lines, rows and cells.

use super::sheet::Sheet;
use super::{Answer, limits, refuse, room, set, within};

/// Alignments and sections as numbers: N, L, R, C and H, B, F.
pub const NONE: usize = 0;
pub const LEFT: usize = 1;
pub const RIGHT: usize = 2;
pub const CENTER: usize = 3;
pub const HEAD: usize = 0;
pub const BODY: usize = 1;
pub const FOOT: usize = 2;

#[derive(Clone, PartialEq, Eq, Debug)]
pub struct Layout {
    pub width: usize,
    pub height: usize,
    pub columns: Vec<Column>,
    pub rows: Vec<Row>,
    pub cells: Vec<Cell>,
}

#[derive(Clone, PartialEq, Eq, Debug)]
pub struct Column {
    pub alignment: usize,
    pub width: usize,
}

#[derive(Clone, PartialEq, Eq, Debug)]
pub struct Row {
    pub section: usize,
    pub top: usize,
    pub bottom: usize,
}

/// A cell; `left` is its left border's slot column, `inner` the byte range
/// between its borders on each line strictly inside.
#[derive(Clone, PartialEq, Eq, Debug)]
pub struct Cell {
    pub row: usize,
    pub column: usize,
    pub colspan: usize,
    pub rowspan: usize,
    pub left: usize,
    pub inner: Vec<(usize, usize)>,
}

/// Lengths of the output arrays.
#[derive(Clone, Copy, PartialEq, Eq, Debug)]
pub struct Space {
    pub columns: usize,
    pub rows: usize,
    pub cells: usize,
    pub inner: usize,
}

impl Space {
    pub const ENOUGH: Space = Space {
        columns: usize::MAX,
        rows: usize::MAX,
        cells: usize::MAX,
        inner: usize::MAX,
    };
}

impl Layout {
    /// Width, and the numbers of columns, rows, cells and ranges.
    pub fn sizes(&self) -> [usize; 5] {
        [
            self.width,
            self.columns.len(),
            self.rows.len(),
            self.cells.len(),
            self.cells.iter().map(|c| c.inner.len()).sum(),
        ]
    }

    /// What the layout call writes: columns, rows, cells and ranges.
    pub fn arrays(&self) -> [Vec<usize>; 4] {
        let columns = self.columns.iter().flat_map(|c| [c.alignment, c.width]);
        let rows = self.rows.iter().flat_map(|r| [r.section, r.top, r.bottom]);
        let cells = self
            .cells
            .iter()
            .flat_map(|c| [c.row, c.column, c.colspan, c.rowspan, c.left]);
        let ranges = self.cells.iter().flat_map(|c| &c.inner);
        [
            columns.collect(),
            rows.collect(),
            cells.collect(),
            ranges.flat_map(|&(start, end)| [start, end]).collect(),
        ]
    }
}

pub fn read(sheet: &Sheet, space: Space) -> Answer<Layout> {
    sheet.check_sizes()?;
    sheet.check_limits()?;
    read_checked(sheet, space)
}

/// Reading from refusal 3 on.
pub fn read_checked(sheet: &Sheet, space: Space) -> Answer<Layout> {
    sheet.check_characters()?;
    if !set::is_rule(set::trimmed(sheet.line(0)), b'-') {
        return refuse(4, 0);
    }
    let width = set::trimmed(sheet.line(0)).len();
    within(width, limits::WIDTH)?;
    let grid = slots(sheet, width)?;
    let rects = trace(&grid)?;
    let layout = table(sheet, &grid, &rects);

    room(space.columns, layout.columns.len())?;
    room(space.rows, layout.rows.len())?;
    room(space.cells, layout.cells.len())?;
    let inner: usize = layout.cells.iter().map(|c| c.inner.len()).sum();
    room(space.inner, inner)?;
    Ok(layout)
}

#[derive(Clone, Copy)]
struct Slot {
    corner: bool,
    horizontal: bool,
    vertical: bool,
    byte: usize,
}

struct Grid {
    width: usize,
    height: usize,
    slots: Vec<Vec<Slot>>,
    separators: Vec<usize>,
}

/// The slots of every line, or 5 at the first line that does not fill the
/// width.
fn slots(sheet: &Sheet, width: usize) -> Answer<Grid> {
    let mut grid = Grid {
        width,
        height: sheet.lines,
        slots: vec![],
        separators: vec![],
    };
    for r in 0..sheet.lines {
        let line = set::trimmed(sheet.line(r));
        let separator = r > 0 && set::is_rule(line, b'=');
        if separator {
            grid.separators.push(r);
        }
        let row = line_slots(line, sheet.columns[r], r == 0 || separator);
        if row.len() != width {
            return refuse(5, r);
        }
        grid.slots.push(row);
    }
    Ok(grid)
}

fn line_slots(line: &[u8], start: usize, rule: bool) -> Vec<Slot> {
    let mut slots: Vec<Slot> = vec![];
    for (byte, c) in set::characters(line).unwrap().char_indices() {
        let slot = Slot {
            corner: c == '+',
            horizontal: c == '+' || c == '-' || rule,
            vertical: c == '+' || (c == '|' && !rule),
            byte,
        };
        for _ in 0..set::columns_at(c, start + slots.len()) {
            slots.push(slot);
        }
    }
    slots
}

#[derive(Clone, Copy)]
struct Rect {
    top: usize,
    left: usize,
    bottom: usize,
    right: usize,
}

fn trace(grid: &Grid) -> Answer<Vec<Rect>> {
    if grid.height < 2 || grid.width < 2 {
        return refuse(6, 0);
    }
    let last = grid.height - 1;
    let mut skyline = vec![0; grid.width - 1];
    let mut rects = vec![];
    loop {
        let level = *skyline.iter().min().unwrap();
        if level == last {
            return Ok(rects);
        }
        let left = skyline.iter().position(|&b| b == level).unwrap();
        let Some(rect) = first_bordered(grid, level, left) else {
            return refuse(6, 0);
        };
        let columns = &mut skyline[left..rect.right];
        if columns.iter().any(|&b| b != level) {
            return refuse(6, 0);
        }
        if rects.len() == limits::CELLS {
            return refuse(7, 0);
        }
        columns.fill(rect.bottom);
        rects.push(rect);
    }
}

/// Smallest bottom first, then smallest right.
fn first_bordered(grid: &Grid, top: usize, left: usize) -> Option<Rect> {
    for bottom in top + 1..grid.height {
        for right in left + 1..grid.width {
            let rect = Rect {
                top,
                left,
                bottom,
                right,
            };
            if bordered(grid, rect) {
                return Some(rect);
            }
        }
    }
    None
}

fn bordered(grid: &Grid, rect: Rect) -> bool {
    let at = |r: usize, c: usize| grid.slots[r][c];
    let corners = [
        (rect.top, rect.left),
        (rect.top, rect.right),
        (rect.bottom, rect.left),
        (rect.bottom, rect.right),
    ];
    let across = |r: usize| (rect.left..=rect.right).all(|c| at(r, c).horizontal);
    let down = |c: usize| (rect.top..=rect.bottom).all(|r| at(r, c).vertical);
    corners.iter().all(|&(r, c)| at(r, c).corner)
        && across(rect.top)
        && across(rect.bottom)
        && down(rect.left)
        && down(rect.right)
}

fn sorted_edges(mut edges: Vec<usize>) -> Vec<usize> {
    edges.sort();
    edges.dedup();
    edges
}

fn table(sheet: &Sheet, grid: &Grid, rects: &[Rect]) -> Layout {
    let xs = sorted_edges(rects.iter().flat_map(|r| [r.left, r.right]).collect());
    let ys = sorted_edges(rects.iter().flat_map(|r| [r.top, r.bottom]).collect());
    let index = |edges: &[usize], at: usize| edges.iter().position(|&e| e == at).unwrap();

    let mut columns = vec![];
    for i in 1..xs.len() {
        columns.push(Column {
            alignment: alignment(sheet, grid, xs[i - 1]),
            width: xs[i] - xs[i - 1] - 1,
        });
    }
    let mut rows = vec![];
    for i in 1..ys.len() {
        rows.push(Row {
            section: section(grid, ys[i - 1]),
            top: ys[i - 1],
            bottom: ys[i],
        });
    }
    let mut cells: Vec<Cell> = rects
        .iter()
        .map(|rect| Cell {
            row: index(&ys, rect.top),
            column: index(&xs, rect.left),
            colspan: index(&xs, rect.right) - index(&xs, rect.left),
            rowspan: index(&ys, rect.bottom) - index(&ys, rect.top),
            left: rect.left,
            inner: (rect.top + 1..rect.bottom)
                .map(|r| {
                    let line = &grid.slots[r];
                    (line[rect.left].byte + 1, line[rect.right].byte)
                })
                .collect(),
        })
        .collect();
    cells.sort_by_key(|cell| (cell.row, cell.column));
    Layout {
        width: grid.width,
        height: grid.height,
        columns,
        rows,
        cells,
    }
}

/// The alignment of the column whose left line is `x`, from the segment of
/// the alignment line that starts there.
fn alignment(sheet: &Sheet, grid: &Grid, x: usize) -> usize {
    let r = grid.separators.first().copied().unwrap_or(0);
    let line = set::trimmed(sheet.line(r));
    let slots = &grid.slots[r];
    if !slots[x].corner {
        return NONE;
    }
    let Some(next) = (x + 1..grid.width).find(|&c| slots[c].corner) else {
        return NONE;
    };
    let left = line[slots[x + 1].byte] == b':';
    let right = line[slots[next - 1].byte] == b':';
    match (left, right) {
        (false, false) => NONE,
        (true, false) => LEFT,
        (false, true) => RIGHT,
        (true, true) => CENTER,
    }
}

fn section(grid: &Grid, top: usize) -> usize {
    let separators = &grid.separators;
    let Some(&first) = separators.first() else {
        return BODY;
    };
    if top < first {
        return HEAD;
    }
    let n = separators.len();
    if n >= 2 && separators[n - 1] == grid.height - 1 && top >= separators[n - 2] {
        return FOOT;
    }
    BODY
}
