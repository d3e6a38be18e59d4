//! A table as it is handed in, its checks up to the grid rules, and sameness.

use std::fmt;

use super::layout::{CENTER, FOOT};
use super::{Answer, demand, limits, refuse, set, sum, within};

#[derive(Clone, PartialEq, Eq, Default)]
pub struct Table {
    pub columns: usize,
    pub rows: usize,
    pub cells: usize,
    pub lines: usize,
    pub bytes: usize,
    pub alignments: Vec<usize>,
    pub widths: Vec<usize>,
    pub sections: Vec<usize>,
    pub places: Vec<Place>,
    pub lengths: Vec<usize>,
    pub text: Vec<u8>,
}

/// Where a cell stands, and how many lines it has.
#[derive(Clone, Copy, PartialEq, Eq, Debug)]
pub struct Place {
    pub row: usize,
    pub column: usize,
    pub colspan: usize,
    pub rowspan: usize,
    pub lines: usize,
}

/// The text as characters, so that a printed difference can be read.
impl fmt::Debug for Table {
    fn fmt(&self, f: &mut fmt::Formatter<'_>) -> fmt::Result {
        let sizes = self.sizes();
        let grid = (&self.alignments, &self.widths, &self.sections, &self.places);
        let lines = &self.lengths;
        let text = self.text.escape_ascii();
        write!(f, "{sizes:?} {grid:?} {lines:?} \"{text}\"")
    }
}

impl Table {
    /// Puts a cell's place and lines behind those that are there; the number
    /// of cells is set apart from it.
    pub fn add_cell(&mut self, place: Place, lines: &[Vec<u8>]) {
        self.places.push(place);
        self.lines += lines.len();
        for line in lines {
            self.bytes += line.len();
            self.lengths.push(line.len());
            self.text.extend(line);
        }
    }

    /// The numbers of columns, rows, cells, lines and bytes, as handed in.
    pub fn sizes(&self) -> [usize; 5] {
        [self.columns, self.rows, self.cells, self.lines, self.bytes]
    }

    /// The flat form: columns, sections, cells, line lengths and text.
    pub fn arrays(&self) -> [Vec<usize>; 5] {
        let columns = self.alignments.iter().zip(&self.widths);
        let cells = self.places.iter();
        [
            columns.flat_map(|(&a, &w)| [a, w]).collect(),
            self.sections.clone(),
            cells
                .flat_map(|p| [p.row, p.column, p.colspan, p.rowspan, p.lines])
                .collect(),
            self.lengths.clone(),
            self.text.iter().map(|&b| usize::from(b)).collect(),
        ]
    }

    /// All lines in array order, once the sizes are known to agree.
    pub fn all_lines(&self) -> Vec<&[u8]> {
        let mut start = 0;
        let mut lines = vec![];
        for &length in &self.lengths {
            lines.push(&self.text[start..start + length]);
            start += length;
        }
        lines
    }

    /// Each cell's lines, trimmed and without empty last ones.
    pub fn cell_lines(&self) -> Vec<Vec<&[u8]>> {
        let all = self.all_lines();
        let mut start = 0;
        let mut cells = vec![];
        for place in &self.places {
            let mut lines: Vec<&[u8]> = all[start..start + place.lines]
                .iter()
                .map(|line| set::trimmed(line))
                .collect();
            while lines.last().is_some_and(|line| line.is_empty()) {
                lines.pop();
            }
            start += place.lines;
            cells.push(lines);
        }
        cells
    }

    /// 13.
    pub fn check_sizes(&self) -> Answer<()> {
        demand(self.alignments.len() == self.columns)?;
        demand(self.widths.len() == self.columns)?;
        demand(self.sections.len() == self.rows)?;
        demand(self.places.len() == self.cells)?;
        demand(self.lengths.len() == self.lines)?;
        demand(self.text.len() == self.bytes)?;
        demand(self.alignments.iter().all(|&a| a <= CENTER))?;
        demand(self.sections.iter().all(|&s| s <= FOOT))?;
        let counts: Vec<usize> = self.places.iter().map(|p| p.lines).collect();
        demand(sum(&counts) == Some(self.lines))?;
        demand(sum(&self.lengths) == Some(self.bytes))
    }

    /// 1, then 2.
    pub fn check_limits(&self, origin: usize) -> Answer<()> {
        check_grid_sizes(self.columns, self.rows, self.cells, &self.widths)?;
        within(origin, limits::LINE_COLUMN)?;
        within(self.lines, limits::TABLE_LINES)?;
        within(self.bytes, limits::BYTES)?;
        for place in &self.places {
            within(place.lines, limits::LINES)?;
        }
        for &length in &self.lengths {
            within(length, limits::LINE_BYTES)?;
        }
        Ok(())
    }

    /// 3.
    pub fn check_characters(&self) -> Answer<()> {
        for (i, line) in self.all_lines().iter().enumerate() {
            if set::characters(line).is_none() {
                return refuse(3, i);
            }
        }
        Ok(())
    }

    /// 8.
    pub fn check_grid(&self) -> Answer<()> {
        if keeps_grid_rules(self.columns, self.rows, &self.sections, &self.places) {
            Ok(())
        } else {
            refuse(8, 0)
        }
    }
}

/// 1, then the limits of 2 that a page has too.
pub fn check_grid_sizes(columns: usize, rows: usize, cells: usize, widths: &[usize]) -> Answer<()> {
    if columns == 0 || rows == 0 || cells == 0 {
        return refuse(1, 0);
    }
    within(columns, limits::COLUMNS)?;
    within(rows, limits::ROWS)?;
    within(cells, limits::CELLS)?;
    for &width in widths {
        within(width, limits::WIDTH)?;
    }
    Ok(())
}

pub fn keeps_grid_rules(columns: usize, rows: usize, sections: &[usize], places: &[Place]) -> bool {
    let in_grid = |p: &Place| {
        p.row < rows
            && p.column < columns
            && 1 <= p.colspan
            && p.colspan <= columns - p.column
            && 1 <= p.rowspan
            && p.rowspan <= rows - p.row
    };
    if !places.iter().all(in_grid) {
        return false;
    }
    let in_order = |pair: &[Place]| (pair[0].row, pair[0].column) < (pair[1].row, pair[1].column);
    if !places.windows(2).all(in_order) {
        return false;
    }
    let mut covered = vec![vec![0; columns]; rows];
    for p in places {
        for row in &mut covered[p.row..p.row + p.rowspan] {
            for square in &mut row[p.column..p.column + p.colspan] {
                *square += 1;
            }
        }
    }
    let once = covered.iter().flatten().all(|&n| n == 1);
    let rows_start = (0..rows).all(|r| places.iter().any(|p| p.row == r));
    let columns_start = (0..columns).all(|c| places.iter().any(|p| p.column == c));
    let sections_run = sections.windows(2).all(|s| s[0] <= s[1]);
    let one_section =
        |p: &Place| (p.row..p.row + p.rowspan).all(|r| sections[r] == sections[p.row]);
    once && rows_start && columns_start && sections_run && places.iter().all(one_section)
}

/// The number of columns, alignments, sections, cells with their spans, and
/// each cell's trimmed lines without empty last ones agree.
pub fn same(a: &Table, b: &Table) -> bool {
    let spans = |t: &Table| -> Vec<(usize, usize, usize, usize)> {
        t.places
            .iter()
            .map(|p| (p.row, p.column, p.colspan, p.rowspan))
            .collect()
    };
    a.columns == b.columns
        && a.alignments == b.alignments
        && a.sections == b.sections
        && spans(a) == spans(b)
        && a.cell_lines() == b.cell_lines()
}
