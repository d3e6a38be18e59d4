//! The corner at which tracing stopped, for the words of refusal 6. It is found anew, by
//! document 01's way of tracing; that this is the corner of the proved call is tested, not
//! proved.

use gridtable::{Line, is_rule, trim_end};

use crate::screen;

/// Where tracing stopped, and why.
#[derive(Clone, Copy, PartialEq, Eq, Debug)]
pub struct Corner {
    pub line: usize,
    /// The screen column in the sheet.
    pub column: usize,
    pub why: Why,
}

#[derive(Clone, Copy, PartialEq, Eq, Debug)]
pub enum Why {
    /// A single line, or a single column.
    NothingToPart,
    /// No cell starts here. Its upper border would go on to column `right`, its left border to
    /// line `down`.
    NoCell { right: usize, down: usize },
    /// The cell that starts here runs into one above it, at column `at`.
    Overlap { at: usize },
}

/// A sheet as slots; on a rule line everything but `+` counts as horizontal.
struct Grid {
    slots: Vec<Vec<char>>,
    rules: Vec<bool>,
    width: usize,
}

impl Grid {
    fn new(lines: &[Line<'_>]) -> Grid {
        let trimmed = lines.iter().map(|line| (trim_end(line.text), line.column));
        let slots: Vec<Vec<char>> = trimmed.map(|(t, c)| screen::slots(t, c.into())).collect();
        let separator = |line: &Line<'_>| is_rule(trim_end(line.text), b'=');
        let later = lines.iter().skip(1).map(separator);
        Grid {
            width: slots.first().map_or(0, Vec::len),
            rules: std::iter::once(true).chain(later).collect(),
            slots,
        }
    }

    fn slot(&self, r: usize, x: usize) -> char {
        self.slots[r].get(x).copied().unwrap_or(' ')
    }

    fn corner(&self, r: usize, x: usize) -> bool {
        self.slot(r, x) == '+'
    }

    fn horizontal(&self, r: usize, x: usize) -> bool {
        self.rules[r] || matches!(self.slot(r, x), '+' | '-')
    }

    fn vertical(&self, r: usize, x: usize) -> bool {
        self.corner(r, x) || !self.rules[r] && self.slot(r, x) == '|'
    }

    /// How far the border goes right from a corner, and how far down.
    fn reach(&self, r: usize, x: usize) -> (usize, usize) {
        let right = (x + 1..self.width).take_while(|&right| self.horizontal(r, right));
        let down = (r + 1..self.slots.len()).take_while(|&down| self.vertical(down, x));
        (right.last().unwrap_or(x), down.last().unwrap_or(r))
    }

    /// Bottom and right of the first bordered rectangle at a corner.
    fn rectangle(&self, r: usize, x: usize) -> Option<(usize, usize)> {
        let (reach, down) = self.reach(r, x);
        let closes = |bottom: usize, right: usize| {
            self.corner(r, right)
                && self.corner(bottom, right)
                && (x..=right).all(|x| self.horizontal(bottom, x))
                && (r..=bottom).all(|r| self.vertical(r, right))
        };
        let starts = self.corner(r, x);
        (r + 1..=down)
            .filter(|&bottom| starts && self.corner(bottom, x))
            .flat_map(|bottom| (x + 1..=reach).map(move |right| (bottom, right)))
            .find(|&(bottom, right)| closes(bottom, right))
    }
}

/// The corner, or none where the lines trace.
pub fn find(lines: &[Line<'_>]) -> Option<Corner> {
    let grid = Grid::new(lines);
    if lines.len() < 2 || grid.width < 2 {
        let why = Why::NothingToPart;
        return Some(Corner {
            line: 0,
            column: 0,
            why,
        });
    }
    let mut skyline = vec![0; grid.width - 1];
    loop {
        let line = *skyline.iter().min().unwrap();
        if line == lines.len() - 1 {
            return None;
        }
        let column = skyline.iter().position(|&level| level == line).unwrap();
        let Some((bottom, right)) = grid.rectangle(line, column) else {
            let (right, down) = grid.reach(line, column);
            let why = Why::NoCell { right, down };
            return Some(Corner { line, column, why });
        };
        let below = &mut skyline[column..right];
        if let Some(at) = below.iter().position(|&level| level != line) {
            let why = Why::Overlap { at: column + at };
            return Some(Corner { line, column, why });
        }
        below.fill(bottom);
    }
}

#[cfg(test)]
mod tests {
    use super::*;
    use gridtable::Workspace;
    use paper::make::{Rng, sheets};

    fn found(lines: &[&str]) -> Option<(usize, usize, Why)> {
        let lines: Vec<Line<'_>> = lines.iter().map(|&text| text.into()).collect();
        find(&lines).map(|corner| (corner.line, corner.column, corner.why))
    }

    #[test]
    fn it_is_where_tracing_stops() {
        let no_cell = |right, down| Why::NoCell { right, down };
        assert_eq!(found(&["+"]), Some((0, 0, Why::NothingToPart)));
        assert_eq!(found(&["+-+"]), Some((0, 0, Why::NothingToPart)));
        assert_eq!(found(&["+-+", "+-+"]), None);
        let open = ["+---+", "| a |", " ----"];
        assert_eq!(found(&open), Some((0, 0, no_cell(4, 1))));
        let overlap = Why::Overlap { at: 2 };
        assert_eq!(
            found(&["+-+-+", "+-++|", "|x+++", "+--++"]),
            Some((1, 0, overlap))
        );
    }

    #[test]
    fn it_is_the_corner_of_the_cell_that_is_not_closed() {
        let sheet = |third, fourth, last| ["+---+---+", "| a | b |", third, fourth, last];
        let no_cell = |right, down| Why::NoCell { right, down };
        for (sheet, stop) in [
            (
                sheet("+---+- -+", "| c | d |", "+---+-- +"),
                Some((0, 4, no_cell(8, 4))),
            ),
            (
                sheet("+---+---+", "| c   d |", "+---+---|"),
                Some((2, 0, no_cell(8, 4))),
            ),
            (
                sheet("+---+---+", "| c | d |", "+---+-  +"),
                Some((2, 4, no_cell(8, 4))),
            ),
            (sheet("+---+- -+", "+---+   |", "+---+---+"), None),
        ] {
            assert_eq!(found(&sheet), stop, "{sheet:#?}");
        }
    }

    /// Of random sheets it is found exactly where the proved call refuses with 6.
    #[test]
    fn it_is_found_where_reading_refuses_with_6() {
        let mut workspace = Workspace::new();
        let (mut accepted, mut stopped) = (0, 0);
        for seed in 0..4_000 {
            let sheet = sheets::sheet(&mut Rng::new(seed));
            if sheet.check_sizes().is_err() {
                continue;
            }
            let lines: Vec<Line<'_>> = (0..sheet.lines)
                .map(|r| Line::at(sheet.line(r), sheet.columns[r] as u16))
                .collect();
            match workspace.layout(&lines).map_err(|refusal| refusal.number()) {
                Ok(_) => {
                    assert_eq!(find(&lines), None, "seed {seed}");
                    accepted += 1;
                }
                Err(6) => {
                    assert!(find(&lines).is_some(), "seed {seed}");
                    stopped += 1;
                }
                Err(_) => {}
            }
        }
        assert!(accepted > 1_000 && stopped > 100, "{accepted}, {stopped}");
    }
}
