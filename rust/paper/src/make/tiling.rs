//! Tilings of a grid with spanning cells, and sections for their rows.

use super::Rng;
use crate::layout::{BODY, FOOT, HEAD};
use crate::table::Place;

/// A tiling that keeps the grid rules, with at most this many rows and
/// columns.
pub fn tiling(rng: &mut Rng, rows: usize, columns: usize, spans: bool) -> Vec<Place> {
    let mut taken = vec![vec![false; columns]; rows];
    let mut places = vec![];
    for row in 0..rows {
        for column in 0..columns {
            if taken[row][column] {
                continue;
            }
            let mut place = Place {
                row,
                column,
                colspan: 1,
                rowspan: 1,
                lines: 0,
            };
            if spans {
                grow(rng, &taken, &mut place);
            }
            for line in &mut taken[row..row + place.rowspan] {
                line[column..column + place.colspan].fill(true);
            }
            places.push(place);
        }
    }
    drop_empty_lines(&mut places);
    places
}

/// Widens a cell over free squares of its row, then lets it reach down; the
/// squares below are free, since cells are placed in order.
fn grow(rng: &mut Rng, taken: &[Vec<bool>], place: &mut Place) {
    let (rows, columns) = (taken.len(), taken[0].len());
    while rng.below(5) < 2 {
        let next = place.column + place.colspan;
        if next == columns || taken[place.row][next] {
            break;
        }
        place.colspan += 1;
    }
    while rng.once_in(3) && place.row + place.rowspan < rows {
        place.rowspan += 1;
    }
}

/// Takes out each row and column in which no cell starts.
fn drop_empty_lines(places: &mut [Place]) {
    let (rows, columns) = size(places);
    for r in (0..rows).rev() {
        if places.iter().all(|p| p.row != r) {
            for p in places.iter_mut() {
                if p.row > r {
                    p.row -= 1;
                } else if p.row + p.rowspan > r {
                    p.rowspan -= 1;
                }
            }
        }
    }
    for c in (0..columns).rev() {
        if places.iter().all(|p| p.column != c) {
            for p in places.iter_mut() {
                if p.column > c {
                    p.column -= 1;
                } else if p.column + p.colspan > c {
                    p.colspan -= 1;
                }
            }
        }
    }
}

/// Rows and columns of a tiling.
pub fn size(places: &[Place]) -> (usize, usize) {
    let rows = places.iter().map(|p| p.row + p.rowspan).max().unwrap();
    let columns = places.iter().map(|p| p.column + p.colspan).max().unwrap();
    (rows, columns)
}

/// The row numbers at which no cell crosses, both ends counted.
pub fn free_lines(places: &[Place]) -> Vec<usize> {
    let (rows, _) = size(places);
    (0..=rows)
        .filter(|&r| places.iter().all(|p| r <= p.row || p.row + p.rowspan <= r))
        .collect()
}

/// Sections that no cell crosses; mostly no Foot without a Head.
pub fn sections(rng: &mut Rng, places: &[Place]) -> Vec<usize> {
    let (rows, _) = size(places);
    let free = free_lines(places);
    let head = if rng.once_in(2) { 0 } else { rng.pick(&free) };
    let feet: Vec<usize> = free.into_iter().filter(|&r| r >= head).collect();
    let foot = if (head == 0 && !rng.once_in(12)) || rng.once_in(2) {
        rows
    } else {
        rng.pick(&feet)
    };
    (0..rows)
        .map(|r| {
            if r < head {
                HEAD
            } else if r >= foot {
                FOOT
            } else {
                BODY
            }
        })
        .collect()
}
