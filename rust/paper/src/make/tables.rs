//! Tables: random tilings with lines, damaged copies, and ones at the limits.

use super::text::{self, Kind};
use super::{Rng, tiling};
use crate::draw::Plan;
use crate::layout::NONE;
use crate::table::{Place, Table};

/// A table of any kind with the origin of its drawing.
pub fn table(rng: &mut Rng) -> (Table, usize) {
    let origin = rng.pick(&[0, 0, 0, 1, 2, 3, 5, 255]);
    match rng.below(100) {
        0..=54 => (valid(rng), origin),
        55..=74 => (splitting(rng), origin),
        75..=96 => {
            let mut table = valid(rng);
            damage(rng, &mut table);
            (table, origin)
        }
        _ => at_limit(rng, origin),
    }
}

pub fn assemble(rng: &mut Rng, places: &[Place], cells: &[Vec<Vec<u8>>]) -> Table {
    let (rows, columns) = tiling::size(places);
    let mut table = Table {
        columns,
        rows,
        cells: places.len(),
        alignments: vec![NONE; columns],
        widths: vec![1; columns],
        sections: tiling::sections(rng, places),
        ..Table::default()
    };
    for (place, lines) in places.iter().zip(cells) {
        let place = Place {
            lines: lines.len(),
            ..*place
        };
        table.add_cell(place, lines);
    }
    table
}

/// Mostly one that redraw accepts.
pub fn valid(rng: &mut Rng) -> Table {
    let rows = rng.between(1, 5);
    let columns = rng.between(1, 5);
    let spans = !rng.once_in(4);
    let places = tiling::tiling(rng, rows, columns, spans);
    let kind = text::kind(rng);
    let cells: Vec<Vec<Vec<u8>>> = places.iter().map(|_| lines(rng, kind)).collect();
    let mut table = assemble(rng, &places, &cells);
    for width in &mut table.widths {
        *width = rng.pick(&[0, 1, 1, 2, 3, 5, 9]);
    }
    align(rng, &mut table);
    table
}

fn lines(rng: &mut Rng, kind: Kind) -> Vec<Vec<u8>> {
    let count = rng.pick(&[0, 1, 1, 1, 2, 3]);
    (0..count)
        .map(|_| {
            let length = rng.between(0, 6);
            text::line(rng, kind, length).into_bytes()
        })
        .collect()
}

/// Alignments, most often only where the alignment line has a corner.
fn align(rng: &mut Rng, table: &mut Table) {
    if rng.once_in(2) {
        return;
    }
    let plan = Plan::new(table);
    let corners = plan.corners_on(plan.alignment_line());
    let careful = !rng.once_in(8);
    let alignments: Vec<usize> = (0..table.columns)
        .map(|c| {
            if careful && !corners.contains(&plan.xs[c]) {
                NONE
            } else {
                rng.below(4)
            }
        })
        .collect();
    table.alignments = alignments;
}

/// A table with a spanning cell between rows of single cells, and lines with
/// many bars, so that the cell splits or nearly does.
fn splitting(rng: &mut Rng) -> Table {
    let columns = rng.between(2, 4);
    let mut places = vec![];
    let one = |row: usize, column: usize, colspan: usize| Place {
        row,
        column,
        colspan,
        rowspan: 1,
        lines: 0,
    };
    let above = rng.pick(&[0, 1, 1, 1]);
    let mut row = 0;
    for _ in 0..above {
        places.extend((0..columns).map(|c| one(row, c, 1)));
        row += 1;
    }
    let spanning = rng.pick(&[1, 1, 1, 2]);
    let from = rng.pick(&[0, 0, columns - 2]);
    for _ in 0..spanning {
        places.extend((0..from).map(|c| one(row, c, 1)));
        places.push(one(row, from, columns - from));
        row += 1;
    }
    places.extend((0..columns).map(|c| one(row, c, 1)));

    let bars = rng.pick(&["|", "||", "+|", "|\u{301}"]);
    let cells: Vec<Vec<Vec<u8>>> = places
        .iter()
        .map(|place| {
            let count = rng.pick(&[0, 1, 1, 1, 2]);
            (0..count)
                .map(|_| {
                    if place.colspan == 1 {
                        text::line(rng, Kind::Plain, 1).into_bytes()
                    } else {
                        barred(rng, bars).into_bytes()
                    }
                })
                .collect()
        })
        .collect();
    let mut table = assemble(rng, &places, &cells);
    for width in &mut table.widths {
        *width = rng.between(0, 3);
    }
    align(rng, &mut table);
    table
}

fn barred(rng: &mut Rng, bars: &str) -> String {
    let length = rng.between(1, 8);
    (0..length)
        .map(|_| match rng.below(4) {
            0 | 1 => bars,
            2 => "x",
            _ => rng.pick(&[" ", "+", "\t", "\u{4E2D}", "\u{301}"]),
        })
        .collect()
}

/// One change that most often breaks a rule.
fn damage(rng: &mut Rng, table: &mut Table) {
    let i = rng.below(table.cells);
    let j = rng.below(table.cells);
    match rng.below(24) {
        0 => table.places[i].colspan = 0,
        1 => table.places[i].rowspan = 0,
        2 => table.places[i].colspan += 1,
        3 => table.places[i].rowspan += 1,
        4 => table.places[i].column += 1,
        5 => table.places[i].row += 1,
        6 => table.places.swap(i, j),
        7 => table.places[i] = table.places[j],
        8 => table.sections.reverse(),
        9 => {
            let r = rng.below(table.rows);
            table.sections[r] = rng.below(3);
        }
        10 => table.sections.fill(2),
        11 => {
            let c = rng.below(table.columns);
            table.alignments[c] = rng.between(1, 3);
        }
        12 => table.places[i].colspan = usize::MAX,
        13 => table.columns += 1,
        14 => table.rows -= 1,
        15 => table.cells += 1,
        16 => table.lines += 1,
        17 => table.bytes += 1,
        18 => {
            let r = rng.below(table.rows);
            table.sections[r] = 3;
        }
        19 => {
            let c = rng.below(table.columns);
            table.alignments[c] = 4;
        }
        20 | 21 => spoil_text(rng, table),
        22 => {
            // A row in which no cell starts.
            table.rows += 1;
            let last = *table.sections.last().unwrap();
            table.sections.push(last);
            let end = table.rows - 1;
            for p in &mut table.places {
                if p.row + p.rowspan == end {
                    p.rowspan += 1;
                }
            }
        }
        _ => {
            // A column in which no cell starts.
            table.columns += 1;
            table.alignments.push(NONE);
            table.widths.push(1);
            let end = table.columns - 1;
            for p in &mut table.places {
                if p.column + p.colspan == end {
                    p.colspan += 1;
                }
            }
        }
    }
}

/// A character outside the set, or bytes that are not UTF-8, in one line.
pub fn spoil_text(rng: &mut Rng, table: &mut Table) {
    if table.lines == 0 {
        return;
    }
    let i = rng.below(table.lines);
    let at: usize = table.lengths[..i].iter().sum();
    let bytes: Vec<u8> = if rng.once_in(2) {
        text::outside(rng).to_string().into_bytes()
    } else {
        rng.pick(&text::BROKEN).to_vec()
    };
    table.lengths[i] += bytes.len();
    table.bytes += bytes.len();
    table.text.splice(at..at, bytes);
}

/// Rows and columns of single cells, each with these lines.
pub fn even(rng: &mut Rng, rows: usize, columns: usize, lines: &[Vec<u8>]) -> Table {
    let places = tiling::tiling(rng, rows, columns, false);
    let cells = vec![lines.to_vec(); places.len()];
    assemble(rng, &places, &cells)
}

/// One just at or just past each limit.
fn at_limit(rng: &mut Rng, origin: usize) -> (Table, usize) {
    let over = rng.below(2);
    let table = match rng.below(16) {
        0 => even(rng, 1, 63 + over, &[]),
        1 => even(rng, 63 + over, 1, &[]),
        2 => even(rng, 127 + over, 1, &[]),
        3 => even(rng, 1, 127 + over, &[]),
        4 => even(rng, 32, 32, &[]),
        5 => even(rng, 41, 25, &[]),
        6 => even(rng, 1, 1, &vec![b"x".to_vec(); 126 + over]),
        7 => even(rng, 1, 1, &vec![vec![]; 128 + over]),
        8 => {
            let mut table = even(rng, 1, 1, &[b"x".to_vec()]);
            table.widths[0] = 126 + over;
            table
        }
        9 => {
            let mut table = even(rng, 2, 2, &[]);
            table.widths[1] = 128 + over;
            table
        }
        10 => {
            let text = "x".repeat(1 + over) + &"\u{301}".repeat(254);
            even(rng, 1, 1, &[text.into_bytes()])
        }
        11 => even(rng, 1, 1, &[vec![b' '; 512 + over]]),
        12 => {
            // 32,768 bytes of text in lines that trimming drops.
            let mut lines = vec![vec![b' '; 512]; 64];
            lines.push(vec![b' '; over]);
            even(rng, 1, 1, &lines)
        }
        13 => {
            // 16,384 lines in all.
            let mut table = even(rng, 16, 8, &vec![vec![]; 128]);
            if over == 1 {
                table.places.push(Place {
                    row: 16,
                    column: 0,
                    colspan: 8,
                    rowspan: 1,
                    lines: 1,
                });
                table.cells += 1;
                table.rows += 1;
                table.sections.push(2);
                table.lines += 1;
                table.lengths.push(0);
            }
            table
        }
        14 => {
            // A drawing of 32,768 bytes, or of one mark more.
            let line = "x".to_string() + &"\u{301}".repeat(128);
            let mut lines = vec![line.into_bytes(); 126];
            lines[0].extend("\u{301}".repeat(over).bytes());
            even(rng, 1, 1, &lines)
        }
        _ => {
            let mut table = Table::default();
            if over == 1 {
                table.rows = 200;
                table.sections = vec![1; 200];
            }
            table
        }
    };
    let origin = if rng.once_in(12) { 256 } else { origin };
    (table, origin)
}
