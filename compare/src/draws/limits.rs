//! Tables one below, at and one past each limit, tables with several defects,
//! and sizes that the arrays contradict.

use crate::make::tables::{assemble, even, spoil_text, valid};
use crate::make::{Rng, tiling};
use crate::paper::flat::Flat;
use crate::paper::layout::FOOT;
use crate::paper::limits;
use crate::paper::table::{Place, Table};

/// One below, at, or one past.
fn near(rng: &mut Rng, limit: usize) -> usize {
    limit - 1 + rng.below(3)
}

/// One more reason to refuse, so that the order of refusals shows: 13, 2 and 3,
/// 8, 9, 10, the drawn size.
pub fn spoil(rng: &mut Rng, table: &mut Table, origin: &mut usize) {
    let column = rng.below(table.widths.len());
    let row = rng.below(table.sections.len());
    let cell = rng.below(table.places.len());
    match rng.below(24) {
        0 => table.bytes += 1,
        1 => table.sections[row] = FOOT + 1,
        2 => *origin = limits::LINE_COLUMN + 1,
        3 => table.widths[column] = limits::WIDTH + 1,
        4..=6 => spoil_text(rng, table),
        7 => table.places[cell].colspan += 1,
        8 => table.places[cell].rowspan = 0,
        9 => table.sections[row] = rng.below(FOOT + 1),
        10..=12 => table.sections.fill(FOOT),
        13..=17 => table.alignments[column] = rng.between(1, 3),
        _ => table.widths[column] = rng.between(100, limits::WIDTH),
    }
}

/// A table near a limit with the origin of its drawing.
pub fn table(rng: &mut Rng) -> (Table, usize) {
    let mut origin = rng.below(256);
    let x = || vec![b"x".to_vec()];
    let table = match rng.below(24) {
        0 => declared(rng, limits::WIDTH),
        1 => declared(rng, limits::WIDTH - 2),
        2 => columns_drawn(rng),
        3 => rows_drawn(rng),
        4 => {
            let columns = near(rng, limits::COLUMNS);
            even(rng, 1, columns, &[])
        }
        5 => {
            let rows = near(rng, limits::ROWS);
            even(rng, rows, 1, &[])
        }
        6 => {
            let (rows, columns) = rng.pick(&[(32, 32), (33, 31), (41, 25)]);
            even(rng, rows, columns, &[])
        }
        7 => {
            let lines = near(rng, limits::LINES - 2);
            even(rng, 1, 1, &vec![b"x".to_vec(); lines])
        }
        8 => {
            let lines = near(rng, limits::LINES);
            even(rng, 1, 1, &vec![vec![]; lines])
        }
        9 => many_lines(rng),
        10 => {
            let length = near(rng, limits::LINE_BYTES);
            let blank = rng.pick(b" \t");
            even(rng, 2, 1, &[vec![blank; length]])
        }
        11 => long_drawn_line(rng),
        12 => two_long_cells(rng),
        13 => many_bytes(rng),
        14 => many_drawn_bytes(rng),
        15 => full(rng),
        16 => spanning_rows(rng),
        17 => wide_text(rng),
        18 => even(rng, 16, 31, &x()),
        19 => far(rng),
        20 => wrapped_width(rng),
        21 => wrapped_tabs(rng),
        22 => wrapped_height(rng),
        _ => {
            origin = near(rng, limits::LINE_COLUMN);
            valid(rng)
        }
    };
    (table, origin)
}

/// One cell in a column of about this declared width.
fn declared(rng: &mut Rng, width: usize) -> Table {
    let mut table = even(rng, 1, 1, &[b"x".to_vec()]);
    table.widths[0] = near(rng, width);
    table
}

/// A drawn width of about 128 from 63 columns.
fn columns_drawn(rng: &mut Rng) -> Table {
    let rows = rng.between(1, 3);
    let mut table = even(rng, rows, 63, &[]);
    let c = rng.below(63);
    table.widths[c] = near(rng, 2);
    table
}

/// About 128 drawn lines from 63 rows.
fn rows_drawn(rng: &mut Rng) -> Table {
    let columns = rng.between(1, 3);
    let places = tiling::tiling(rng, 63, columns, false);
    let mut cells = vec![vec![]; places.len()];
    let tall = rng.below(places.len());
    cells[tall] = vec![b"x".to_vec(); near(rng, 2)];
    assemble(rng, &places, &cells)
}

/// About 16,384 lines in all, most of them empty.
fn many_lines(rng: &mut Rng) -> Table {
    let places = tiling::tiling(rng, 43, 3, false);
    let mut cells = vec![vec![vec![]; limits::LINES]; places.len()];
    cells[127].truncate(limits::LINES - 1);
    cells[128].truncate(near(rng, 1));
    let c = rng.below(places.len());
    if let Some(line) = cells[c].first_mut() {
        line.push(b'x');
    }
    assemble(rng, &places, &cells)
}

/// A drawn line of about 512 bytes by marks.
fn long_drawn_line(rng: &mut Rng) -> Table {
    let text = "x".repeat(rng.between(1, 3)) + &"\u{301}".repeat(near(rng, 253));
    even(rng, 1, 1, &[text.into_bytes()])
}

/// A drawn line of about 512 bytes over two cells.
fn two_long_cells(rng: &mut Rng) -> Table {
    let text = "x".to_string() + &"\u{301}".repeat(125);
    let mut table = even(rng, 1, 2, &[text.into_bytes()]);
    table.widths[0] = rng.between(1, 5);
    table
}

/// About 32,768 bytes of text, which trimming drops.
fn many_bytes(rng: &mut Rng) -> Table {
    let mut lines = vec![vec![b' '; limits::LINE_BYTES]; 64];
    match rng.below(3) {
        0 => drop(lines[0].pop()),
        1 => {}
        _ => lines.push(vec![b'\t']),
    }
    even(rng, 1, 1, &lines)
}

/// A drawing of about 32,768 bytes.
fn many_drawn_bytes(rng: &mut Rng) -> Table {
    let line = "x".to_string() + &"\u{301}".repeat(128);
    let mut lines = vec![line.into_bytes(); 126];
    match rng.below(4) {
        0 => drop(lines[0].drain(1..3)),
        1 => {}
        2 => lines[5].extend("\u{301}".bytes()),
        _ => drop(lines[7].splice(0..1, "\u{E9}".bytes())),
    }
    even(rng, 1, 1, &lines)
}

/// One cell on 128 lines by 128 columns.
fn full(rng: &mut Rng) -> Table {
    let sign = rng.pick(&["x", "|", "\u{E9}"]);
    let line = sign.repeat(near(rng, 125));
    even(rng, 1, 1, &vec![line.into_bytes(); 126])
}

/// Rows of about 60 cells around cells that span all columns, with bars on all
/// column lines. 64 columns are past the drawn width.
fn spanning_rows(rng: &mut Rng) -> Table {
    let mut places = vec![];
    let mut cells: Vec<Vec<Vec<u8>>> = vec![];
    let (rows, columns) = (rng.pick(&[3, 5, 9, 33]), rng.pick(&[60, 63, 64]));
    for row in 0..rows {
        let colspan = if row % 2 == 1 { columns } else { 1 };
        for column in (0..columns).step_by(colspan) {
            places.push(Place {
                row,
                column,
                colspan,
                rowspan: 1,
                lines: 0,
            });
            cells.push(vec![]);
        }
        if row % 2 == 1 {
            let bars = rng.pick(&["| ", "+ ", "|x", " |"]).repeat(columns - 1);
            *cells.last_mut().unwrap() = vec![bars.into_bytes(); rng.between(1, 2)];
        }
    }
    assemble(rng, &places, &cells)
}

/// Wide characters up to about the width.
fn wide_text(rng: &mut Rng) -> Table {
    let text = "\u{4E2D}".repeat(62) + rng.pick(&["", "x", "xx"]);
    even(rng, 1, 1, &vec![text.into_bytes(); 2])
}

/// All columns of the largest declared width.
fn far(rng: &mut Rng) -> Table {
    let rows = rng.pick(&[1, 2, 8]);
    let columns = rng.between(120, limits::COLUMNS);
    let mut table = even(rng, rows, columns, &[]);
    table.widths.fill(limits::WIDTH);
    table
}

/// A drawn width of 256 and a little more, as an entry of one byte would lose.
fn wrapped_width(rng: &mut Rng) -> Table {
    let mut table = even(rng, 2, 3, &[b"x".to_vec()]);
    // Borders take four columns.
    table.widths = vec![128, 100, 24 + rng.between(3, 100)];
    table
}

/// 256 drawn lines and a few more.
fn wrapped_height(rng: &mut Rng) -> Table {
    let places = tiling::tiling(rng, 3, 1, false);
    let heights = [128, 100, 24 + rng.between(3, 100)];
    let cells = heights.map(|lines| vec![b"x".to_vec(); lines]);
    assemble(rng, &places, &cells)
}

/// A drawn width of 65,536 and a little more, by tabs.
fn wrapped_tabs(rng: &mut Rng) -> Table {
    let places = tiling::tiling(rng, 1, 33, false);
    // A tab counts as 4: 511 of them, a letter, the blank before and a border
    // are 2,047 columns.
    let mut line = vec![b'\t'; 511];
    line.push(b'x');
    let mut cells = vec![vec![line]; 32];
    cells.push(vec![]);
    let mut table = assemble(rng, &places, &cells);
    table.widths[32] = 65_536 - 32 * 2_047 - 2 + rng.between(3, 98);
    table
}

/// Sizes and arrays that contradict each other; sometimes they still agree.
pub fn contradict(rng: &mut Rng, flat: &mut Flat) {
    let far = rng.pick(&[
        0,
        1,
        128,
        65_536,
        usize::MAX / 2,
        usize::MAX / 5 + 1,
        usize::MAX,
    ]);
    for _ in 0..rng.between(1, 2) {
        let size = &mut flat.sizes[rng.below(5)];
        match rng.below(12) {
            0 => *size = size.wrapping_add(1),
            1 => *size = size.saturating_sub(1),
            2 => *size = far,
            3 => change_length(rng, &mut flat.columns),
            4 => change_length(rng, &mut flat.sections),
            5 => change_length(rng, &mut flat.cells),
            6 => change_length(rng, &mut flat.lengths),
            7 => change_length(rng, &mut flat.text),
            8 => set(rng, &mut flat.lengths, (1, 0), &[0, 1, 513, 65_535]),
            9 => set(rng, &mut flat.cells, (5, 4), &[0, 1, 129, 65_535]),
            10 => wrap(rng, flat),
            _ if rng.once_in(2) => set(rng, &mut flat.columns, (2, 0), &[4, 5, 65_535]),
            _ => set(rng, &mut flat.sections, (1, 0), &[3, 4, 255]),
        }
    }
}

/// A number of columns or cells whose entries are as many as the array has only
/// where the product loses its upper part.
fn wrap(rng: &mut Rng, flat: &mut Flat) {
    if rng.once_in(2) {
        flat.sizes[0] = flat.sizes[0].wrapping_add(1 << 63);
    } else {
        change_length(rng, &mut flat.cells);
        // 5 times this is 1.
        flat.sizes[2] = flat.cells.len().wrapping_mul(0xCCCC_CCCC_CCCC_CCCD);
    }
}

pub fn change_length<T: Copy + Default>(rng: &mut Rng, array: &mut Vec<T>) {
    let changed = match rng.below(4) {
        0 => array.len().saturating_sub(1),
        1 => array.len() + 1,
        2 => array.len() + rng.between(1, 12),
        _ => rng.below(array.len() + 1),
    };
    array.resize(changed, T::default());
}

/// Sets one entry: of each `step` entries, the one at `offset`.
pub fn set<T: Copy>(rng: &mut Rng, array: &mut [T], (step, offset): (usize, usize), to: &[T]) {
    if array.len() >= step {
        let i = rng.below(array.len() / step) * step + offset;
        array[i] = rng.pick(to);
    }
}
