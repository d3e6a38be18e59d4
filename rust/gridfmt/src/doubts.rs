//! Doubts: sheets that the rules accept, but that look like a slip which moves a text into
//! another cell. They are looked for in what was read, and are not part of the proof.

use gridtable::{Layout, Line};

use crate::frame::Framed;
use crate::messages::{Message, column_lines};
use crate::screen;

/// A cell as it stands in the drawing: border lines and border columns.
struct Drawn {
    top: usize,
    bottom: usize,
    left: usize,
    right: usize,
    row: usize,
    rowspan: usize,
    colspan: usize,
}

/// What the doubts are looked for in.
struct Sheet<'s, 'a> {
    framed: &'s Framed<'a>,
    slots: Vec<Vec<char>>,
    layout: &'s Layout,
    cells: Vec<Drawn>,
}

/// The doubts about a sheet, at most one of a kind for each cell, from top to bottom.
pub fn doubts(framed: &Framed<'_>, lines: &[Line<'_>], layout: &Layout) -> Vec<Message> {
    let slots = lines
        .iter()
        .map(|line| screen::slots(line.text, line.column.into()));
    let sheet = Sheet {
        framed,
        slots: slots.collect(),
        layout,
        cells: drawn(layout),
    };
    let kinds = [
        Sheet::bar_in_text,
        Sheet::border_in_text,
        Sheet::missing_bar,
    ];
    let of_cell = |cell| kinds.iter().find_map(|kind| kind(&sheet, cell));
    let mut found: Vec<_> = sheet.cells.iter().filter_map(of_cell).collect();
    found.sort_by_key(|&(r, x, _)| (r, x));
    let message = |(r, x, words): (usize, usize, String)| Message::doubt(framed, r, x, words);
    found.into_iter().map(message).collect()
}

fn drawn(layout: &Layout) -> Vec<Drawn> {
    let xs = column_lines(layout);
    let mut cells = vec![];
    for (row, of_row) in layout.rows.iter().enumerate() {
        for cell in &of_row.cells {
            let (rowspan, colspan) = (usize::from(cell.rowspan), usize::from(cell.colspan));
            cells.push(Drawn {
                top: of_row.top,
                bottom: layout.rows[row + rowspan - 1].bottom,
                left: cell.left.into(),
                right: xs[usize::from(cell.column) + colspan],
                row,
                rowspan,
                colspan,
            });
        }
    }
    cells
}

fn is_blank(slot: char) -> bool {
    matches!(slot, ' ' | '\t')
}

fn is_fill(slot: char) -> bool {
    matches!(slot, '-' | '=')
}

type Found = Option<(usize, usize, String)>;

impl Sheet<'_, '_> {
    fn slot(&self, r: usize, x: usize) -> char {
        self.slots[r].get(x).copied().unwrap_or(' ')
    }

    /// The corners on a cell's upper or lower border, apart from its own.
    fn corners(&self, cell: &Drawn) -> Vec<usize> {
        let corner = |&x: &usize| self.slot(cell.top, x) == '+' || self.slot(cell.bottom, x) == '+';
        (cell.left + 1..cell.right).filter(corner).collect()
    }

    /// How many cells a row has, with those that reach into it from above.
    fn cells_in(&self, row: usize) -> usize {
        let covers = |cell: &&Drawn| cell.row <= row && row < cell.row + cell.rowspan;
        self.cells.iter().filter(covers).count()
    }

    /// Whether a row of the cell has fewer cells than the row above or below it.
    fn fewer_than_neighbours(&self, cell: &Drawn) -> bool {
        let rows = self.layout.rows.len();
        (cell.row..cell.row + cell.rowspan).any(|row| {
            let own = self.cells_in(row);
            let above = row
                .checked_sub(1)
                .is_some_and(|above| self.cells_in(above) > own);
            above || (row + 1 < rows && self.cells_in(row + 1) > own)
        })
    }

    /// A bar in the text of a cell that goes below or above a corner: one with blanks around
    /// it, one beside such a corner, or any where a neighbour row has more cells.
    fn bar_in_text(&self, cell: &Drawn) -> Found {
        let corners = self.corners(cell);
        if corners.is_empty() && cell.colspan == 1 {
            return None;
        }
        let fewer = cell.colspan > 1 && self.fewer_than_neighbours(cell);
        let blank =
            |r: usize, x: usize| x == cell.left || x == cell.right || is_blank(self.slot(r, x));
        let near = |x: usize| corners.iter().any(|&corner| corner.abs_diff(x) <= 1);
        let doubtful = |&(r, x): &(usize, usize)| {
            self.slot(r, x) == '|' && (fewer || near(x) || blank(r, x - 1) && blank(r, x + 1))
        };
        let (r, x) = self.inner(cell).find(doubtful)?;
        let why = self.why_no_border(cell, &corners, x);
        Some((
            r,
            x,
            format!("this bar is text of a cell, not a border: {why}"),
        ))
    }

    /// Why a bar in the text of a cell is no border.
    fn why_no_border(&self, cell: &Drawn, corners: &[usize], x: usize) -> String {
        let nearest = corners
            .iter()
            .copied()
            .min_by_key(|corner| corner.abs_diff(x));
        let Some(corner) = nearest else {
            return format!("the cell goes over {} columns", cell.colspan);
        };
        if corner != x {
            let column = self.framed.frame.origin() + corner + 1;
            return format!("the corner next to it is at column {column}");
        }
        for (r, side) in [(cell.top, "above"), (cell.bottom, "below")] {
            if self.slot(r, x) != '+' {
                return format!("the border {side} it has no corner there");
            }
        }
        let open = |&r: &usize| !matches!(self.slot(r, x), '|' | '+');
        let line = (cell.top + 1..cell.bottom).find(open).unwrap_or(cell.top);
        format!(
            "line {} of the cell has none there",
            self.framed.above + line + 1
        )
    }

    /// A line that looks like a border, in the text of a cell.
    fn border_in_text(&self, cell: &Drawn) -> Found {
        let r = (cell.top + 1..cell.bottom).find(|&r| self.looks_like_border(cell, r))?;
        let gap = (cell.left + 1..cell.right).find(|&x| !is_fill(self.slot(r, x)));
        let words = "this line looks like a border, but is text of a cell that joins what stands \
                     above and below it";
        Some((r, gap.unwrap_or(cell.left), words.to_owned()))
    }

    /// Whether a line in a cell is of `-` or `=` and blanks, and meets both sides of the cell;
    /// or meets one, and has a corner there or fills half of the cell; or fills half of it where
    /// another cell has its border.
    fn looks_like_border(&self, cell: &Drawn, r: usize) -> bool {
        let text = || (cell.left + 1..cell.right).map(|x| self.slot(r, x));
        let filled = text().filter(|&slot| is_fill(slot)).count();
        let other = |slot| !is_fill(slot) && !is_blank(slot) && !matches!(slot, ':' | '+');
        if filled < 2 || text().any(other) {
            return false;
        }
        let left = is_fill(self.slot(r, cell.left + 1));
        let right = is_fill(self.slot(r, cell.right - 1));
        let corner = self.slot(r, cell.left) == '+' || self.slot(r, cell.right) == '+';
        let rows = &self.layout.rows[cell.row..cell.row + cell.rowspan];
        let level = corner || rows.iter().any(|row| row.bottom == r);
        let half = 2 * filled >= cell.right - cell.left - 1;
        left && right || (left || right) && (corner || half) || level && half
    }

    /// A wide gap in the text of a cell, below and above corners at which neighbour rows are
    /// parted.
    fn missing_bar(&self, cell: &Drawn) -> Found {
        let both = |&x: &usize| self.slot(cell.top, x) == '+' && self.slot(cell.bottom, x) == '+';
        let lines = cell.top + 1..cell.bottom;
        for x in self.corners(cell).into_iter().filter(both) {
            let gap = |r: usize| {
                let text = |mut xs: std::ops::Range<usize>| xs.any(|x| !is_blank(self.slot(r, x)));
                let around = cell.left < x - 1 && x + 1 < cell.right;
                around && !text(x - 1..x + 2) && text(cell.left + 1..x) && text(x + 1..cell.right)
            };
            let open = lines.clone().all(|r| is_blank(self.slot(r, x)));
            if let Some(r) = lines.clone().find(|&r| open && gap(r)) {
                let words = "the text of this cell has a gap between two corners; a bar may be \
                             missing here";
                return Some((r, x, words.to_owned()));
            }
        }
        None
    }

    /// The slots between a cell's borders, line by line.
    fn inner(&self, cell: &Drawn) -> impl Iterator<Item = (usize, usize)> + use<> {
        let (left, right) = (cell.left + 1, cell.right);
        (cell.top + 1..cell.bottom).flat_map(move |r| (left..right).map(move |x| (r, x)))
    }
}

#[cfg(test)]
mod tests {
    use super::*;
    use crate::frame;

    /// Line and column of each doubt, counted from 1, and its words.
    fn doubted(sheet: &[&str]) -> Vec<String> {
        let text = sheet.join("\n");
        let framed = frame::take_off(text.as_bytes()).unwrap_or_else(|m| panic!("{m:?}"));
        let lines = framed.sheet();
        let layout = gridtable::layout(&lines).unwrap();
        let doubts = doubts(&framed, &lines, &layout);
        let first = |doubt: Message| doubt.render("f").lines().next().unwrap()[2..].to_owned();
        doubts.into_iter().map(first).collect()
    }

    fn assert_doubts(sheet: &[&str], said: &[&str]) {
        assert_eq!(doubted(sheet), said, "{sheet:#?}");
    }

    /// The inner bars of a row one column off: the row is one cell.
    #[test]
    fn slip_1_bars_beside_their_corners() {
        let said =
            ": this bar is text of a cell, not a border: the corner next to it is at column 8";
        let row = |line| {
            [
                "+------+------+",
                "| Belt | 18.50|",
                "+------+------+",
                line,
                "+------+------+",
            ]
        };
        assert_doubts(&row("| Pen  | 12.00|"), &[]);
        for (line, column) in [
            ("| Pen   |12.00|", 9),
            ("| Pen | 12.00 |", 7),
            ("|Pen|   12.00 |", 5),
        ] {
            assert_doubts(&row(line), &[&format!("4:{column}: doubt{said}")]);
        }
        let alone = ["+------+------+", "| Pen   |12.00|", "+------+------+"];
        assert_doubts(&alone, &[&format!("2:9: doubt{said}")]);
        let indented: Vec<String> = alone.iter().map(|line| format!("  {line}")).collect();
        let indented: Vec<&str> = indented.iter().map(|line| &line[..]).collect();
        let said = said.replace("column 8", "column 10");
        assert_doubts(&indented, &[&format!("2:11: doubt{said}")]);
    }

    /// A bar left out on one line of two, and on the only line.
    #[test]
    fn slip_2_a_missing_bar() {
        assert_doubts(
            &[
                "+------+------+",
                "| Pen    12.00|",
                "| A3   | each |",
                "+------+------+",
            ],
            &[
                "3:8: doubt: this bar is text of a cell, not a border: line 2 of the cell has none there",
            ],
        );
        let gap =
            ": the text of this cell has a gap between two corners; a bar may be missing here";
        for line in ["| Pen    12.00|", "| Pen     12  |"] {
            let sheet = [
                "+------+------+",
                line,
                "+------+------+",
                "| Belt | 18.50|",
                "+------+------+",
            ];
            assert_doubts(&sheet, &[&format!("2:8: doubt{gap}")]);
        }
        // A text over both columns has words where the bar would be.
        let sheet = [
            "+------+------+",
            "| Prices in E |",
            "+------+------+",
            "| Belt | 18.50|",
            "+------+------+",
        ];
        assert_doubts(&sheet, &[]);
    }

    /// A gap in a border: two rows are one there.
    #[test]
    fn slip_3_a_gap_in_a_border() {
        let said = ": this line looks like a border, but is text of a cell that joins what stands above and below it";
        let row = |line| {
            [
                "+------+------+",
                "| Pen  | 12.00|",
                line,
                "| Belt | 18.50|",
                "+------+------+",
            ]
        };
        for (line, column) in [
            ("+------+--  --+", 11),
            ("+------+ -----+", 9),
            ("+------+ ---- +", 9),
            ("+------+----- |", 14),
            ("+------+--    +", 11),
        ] {
            assert_doubts(&row(line), &[&format!("3:{column}: doubt{said}")]);
        }
        assert_doubts(
            &["+------+", "| Pen  |", "+--  --+", "| Belt |", "+------+"],
            &[&format!("3:4: doubt{said}")],
        );
        // `--` for none, also in the middle of a cell over two rows.
        assert_doubts(
            &["+------+", "| Pen  |", "|--    |", "| Belt |", "+------+"],
            &[],
        );
        assert_doubts(&row("+------+  --  |"), &[]);
        assert_doubts(
            &["+------+", "| Pen  |", "| ---  |", "| Belt |", "+------+"],
            &[],
        );
    }

    /// A separator with a gap is text, and the Head is lost.
    #[test]
    fn slip_4_a_gap_in_a_separator() {
        let said = ": this line looks like a border, but is text of a cell that joins what stands above and below it";
        let sheet = [
            "+------+------+",
            "| Part | Price|",
            "+======+=== ==+",
            "| Belt | 18.50|",
            "+------+------+",
        ];
        assert_doubts(
            &sheet,
            &[&format!("3:1: doubt{said}"), &format!("3:12: doubt{said}")],
        );
    }

    /// A border without its inner corner joins the cells on both sides of it.
    #[test]
    fn slip_5_a_missing_corner() {
        let sheet = [
            "+------+------+",
            "| Pen  | 12.00|",
            "+-------------+",
            "| Belt | 18.50|",
            "+------+------+",
        ];
        let said = "doubt: this bar is text of a cell, not a border: the border";
        assert_doubts(
            &sheet,
            &[
                &format!("2:8: {said} below it has no corner there"),
                &format!("4:8: {said} above it has no corner there"),
            ],
        );
    }

    /// Any bar in a row with fewer cells than its neighbour.
    #[test]
    fn a_bar_in_a_row_of_fewer_cells() {
        let sheet = [
            "+----+----+----+",
            "| a  | b  | c  |",
            "+----+----+----+",
            "| d|e     | f  |",
            "+---------+----+",
        ];
        let said = "4:4: doubt: this bar is text of a cell, not a border: the corner next to it is at column 6";
        assert_doubts(&sheet, &[said]);
        assert_doubts(
            &["+--------+----+", "| a|b    | c  |", "+--------+----+"],
            &[],
        );
    }
}
