//! The plain drawing of a table that keeps the grid rules.

use super::layout::{CENTER, FOOT, HEAD, LEFT, NONE, RIGHT};
use super::set;
use super::table::Table;

/// Where everything of a drawing stands, before any slot is filled.
pub struct Plan<'t> {
    pub table: &'t Table,
    pub lines: Vec<Vec<&'t str>>,
    pub xs: Vec<usize>,
    pub ys: Vec<usize>,
    /// The `=` lines, from above.
    pub rules: Vec<usize>,
}

/// What stands in a slot: nothing where a character before it reaches over
/// it; behind a character, the marks that join it.
#[derive(Clone, Default)]
pub struct Slot {
    pub sign: Option<char>,
    pub marks: String,
}

impl From<char> for Slot {
    fn from(sign: char) -> Slot {
        Slot {
            sign: Some(sign),
            marks: String::new(),
        }
    }
}

pub type Canvas = Vec<Vec<Slot>>;

impl<'t> Plan<'t> {
    pub fn new(table: &'t Table) -> Plan<'t> {
        let lines: Vec<Vec<&str>> = table
            .cell_lines()
            .iter()
            .map(|cell| cell.iter().map(|l| set::characters(l).unwrap()).collect())
            .collect();
        let xs = edges(&column_widths(table, &lines));
        let ys = edges(&row_heights(table, &lines));
        let rules = rules(table, &ys);
        Plan {
            table,
            lines,
            xs,
            ys,
            rules,
        }
    }

    pub fn width(&self) -> usize {
        self.xs[self.table.columns] + 1
    }

    pub fn height(&self) -> usize {
        self.ys[self.table.rows] + 1
    }

    /// A cell's borders: top, left, bottom, right.
    pub fn borders(&self, cell: usize) -> (usize, usize, usize, usize) {
        let p = &self.table.places[cell];
        (
            self.ys[p.row],
            self.xs[p.column],
            self.ys[p.row + p.rowspan],
            self.xs[p.column + p.colspan],
        )
    }

    pub fn alignment_line(&self) -> usize {
        self.rules.first().copied().unwrap_or(0)
    }

    /// The columns of the corners on a line.
    pub fn corners_on(&self, line: usize) -> Vec<usize> {
        let mut columns = vec![];
        for cell in 0..self.table.cells {
            let (top, left, bottom, right) = self.borders(cell);
            if line == top || line == bottom {
                columns.push(left);
                columns.push(right);
            }
        }
        columns.sort();
        columns.dedup();
        columns
    }

    /// The colons drawn for a column, or none where it is not aligned or has
    /// no corner at its left on the alignment line.
    pub fn colons(&self, column: usize) -> Vec<usize> {
        let corners = self.corners_on(self.alignment_line());
        let x = self.xs[column];
        let Some(i) = corners.iter().position(|&c| c == x) else {
            return vec![];
        };
        let next = corners[i + 1];
        match self.table.alignments[column] {
            LEFT => vec![x + 1],
            RIGHT => vec![next - 1],
            CENTER => vec![x + 1, next - 1],
            _ => vec![],
        }
    }

    pub fn canvas(&self, origin: usize) -> Canvas {
        let mut canvas = vec![vec![Slot::from(' '); self.width()]; self.height()];
        for cell in 0..self.table.cells {
            let (top, left, bottom, right) = self.borders(cell);
            for y in [top, bottom] {
                let sign = if self.rules.contains(&y) { '=' } else { '-' };
                for slot in &mut canvas[y][left + 1..right] {
                    *slot = sign.into();
                }
            }
            for line in &mut canvas[top + 1..bottom] {
                line[left] = '|'.into();
                line[right] = '|'.into();
            }
        }
        // Corners come after all sides, since a side of one cell may run
        // through the corner of another.
        for cell in 0..self.table.cells {
            let (top, left, bottom, right) = self.borders(cell);
            for (y, x) in [(top, left), (top, right), (bottom, left), (bottom, right)] {
                canvas[y][x] = '+'.into();
            }
        }
        for column in 0..self.table.columns {
            for x in self.colons(column) {
                canvas[self.alignment_line()][x] = ':'.into();
            }
        }
        for cell in 0..self.table.cells {
            let (top, left, _, _) = self.borders(cell);
            for (i, line) in self.lines[cell].iter().enumerate() {
                write_line(&mut canvas[top + 1 + i], left + 2, line, origin);
            }
        }
        canvas
    }
}

fn write_line(slots: &mut [Slot], start: usize, line: &str, origin: usize) {
    let mut x = start;
    let mut last = start - 1;
    for c in line.chars() {
        let columns = set::columns_at(c, origin + x);
        if columns == 0 {
            slots[last].marks.push(c);
            continue;
        }
        slots[x] = c.into();
        slots[x + 1..x + columns].fill(Slot::default());
        last = x;
        x += columns;
    }
}

fn widest(lines: &[&str]) -> usize {
    let columns = |c: char| {
        if c == '\t' { 4 } else { set::columns_at(c, 0) }
    };
    lines
        .iter()
        .map(|line| line.chars().map(columns).sum())
        .max()
        .unwrap_or(0)
}

fn column_widths(table: &Table, lines: &[Vec<&str>]) -> Vec<usize> {
    let mut widths: Vec<usize> = (0..table.columns)
        .map(|c| {
            let least = if table.alignments[c] == NONE { 1 } else { 3 };
            table.widths[c].max(least)
        })
        .collect();
    for (place, lines) in table.places.iter().zip(lines) {
        if place.colspan == 1 {
            widths[place.column] = widths[place.column].max(widest(lines) + 1);
        }
    }
    for (place, lines) in table.places.iter().zip(lines) {
        add_lack(&mut widths, place.column, place.colspan, widest(lines) + 1);
    }
    widths
}

fn row_heights(table: &Table, lines: &[Vec<&str>]) -> Vec<usize> {
    let mut heights = vec![1; table.rows];
    for (place, lines) in table.places.iter().zip(lines) {
        if place.rowspan == 1 {
            heights[place.row] = heights[place.row].max(lines.len());
        }
    }
    for (place, lines) in table.places.iter().zip(lines) {
        add_lack(&mut heights, place.row, place.rowspan, lines.len());
    }
    heights
}

/// What a cell lacks, inner borders counted, goes to the last of its sizes.
fn add_lack(sizes: &mut [usize], first: usize, span: usize, need: usize) {
    let have = sizes[first..first + span].iter().sum::<usize>() + span - 1;
    if have < need {
        sizes[first + span - 1] += need - have;
    }
}

fn edges(sizes: &[usize]) -> Vec<usize> {
    let mut edges = vec![0];
    let mut at = 0;
    for size in sizes {
        at += size + 1;
        edges.push(at);
    }
    edges
}

fn rules(table: &Table, ys: &[usize]) -> Vec<usize> {
    let count = |section: usize| table.sections.iter().filter(|&&s| s == section).count();
    let (heads, feet) = (count(HEAD), count(FOOT));
    let mut rules = vec![];
    if heads > 0 {
        rules.push(ys[heads]);
    }
    if feet > 0 {
        rules.push(ys[table.rows - feet]);
        rules.push(ys[table.rows]);
    }
    rules.dedup();
    rules
}

/// The drawn lines.
pub fn lines_of(canvas: &Canvas) -> Vec<Vec<u8>> {
    canvas.iter().map(|row| line_of(row).into_bytes()).collect()
}

fn line_of(row: &[Slot]) -> String {
    let mut line = String::new();
    for slot in row {
        line.extend(slot.sign);
        line.push_str(&slot.marks);
    }
    line
}
