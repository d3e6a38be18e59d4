//! All grids up to 3 by 3, with all sections of their rows and all alignments
//! of their columns.

use crate::make::tiling;
use crate::paper::layout::{CENTER, FOOT};
use crate::paper::table::{Place, Table};

const MOST: usize = 3;
const SECTIONS: usize = FOOT + 1;
const ALIGNMENTS: usize = CENTER + 1;

/// Every way to cover a grid with rectangles, those in which no cell starts in
/// some row or column included.
pub struct Small {
    tilings: Vec<(Vec<Place>, usize)>,
    count: usize,
    /// The numbers of those that keep the grid rules.
    kept: Vec<usize>,
}

impl Small {
    pub fn new() -> Small {
        let mut small = Small {
            tilings: vec![],
            count: 0,
            kept: vec![],
        };
        for rows in 1..=MOST {
            for columns in 1..=MOST {
                cover(rows, columns, &mut vec![], &mut |places| {
                    small.tilings.push((places.to_vec(), small.count));
                    small.count += SECTIONS.pow(rows as u32) * ALIGNMENTS.pow(columns as u32);
                });
            }
        }
        let keeps = |&number: &usize| small.table(number).check_grid().is_ok();
        small.kept = (0..small.count).filter(keeps).collect();
        small
    }

    pub fn kept(&self) -> &[usize] {
        &self.kept
    }

    pub fn count(&self) -> usize {
        self.count
    }

    /// Grid `number`, its cells without lines, its declared widths 1.
    pub fn table(&self, number: usize) -> Table {
        let after = self.tilings.partition_point(|(_, first)| *first <= number);
        let (places, first) = &self.tilings[after - 1];
        let (rows, columns) = tiling::size(places);
        let mut rest = number - first;
        let mut digit = |base: usize| {
            let digit = rest % base;
            rest /= base;
            digit
        };
        Table {
            columns,
            rows,
            cells: places.len(),
            sections: (0..rows).map(|_| digit(SECTIONS)).collect(),
            alignments: (0..columns).map(|_| digit(ALIGNMENTS)).collect(),
            widths: vec![1; columns],
            places: places.clone(),
            ..Table::default()
        }
    }
}

/// Puts each rectangle that fits on the first square that is not covered yet.
fn cover(rows: usize, columns: usize, places: &mut Vec<Place>, each: &mut dyn FnMut(&[Place])) {
    let covered = |r: usize, c: usize, places: &[Place]| {
        let holds = |p: &Place| {
            (p.row..p.row + p.rowspan).contains(&r) && (p.column..p.column + p.colspan).contains(&c)
        };
        places.iter().any(holds)
    };
    let squares = (0..rows).flat_map(|r| (0..columns).map(move |c| (r, c)));
    let Some((row, column)) = squares.into_iter().find(|&(r, c)| !covered(r, c, places)) else {
        each(places);
        return;
    };
    for colspan in 1..=columns - column {
        if covered(row, column + colspan - 1, places) {
            break;
        }
        for rowspan in 1..=rows - row {
            places.push(Place {
                row,
                column,
                colspan,
                rowspan,
                lines: 0,
            });
            cover(rows, columns, places, each);
            places.pop();
        }
    }
}
