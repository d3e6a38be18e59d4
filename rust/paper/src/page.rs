//! The page and the columns' shares.

use super::layout::{BODY, CENTER, FOOT, HEAD, LEFT, RIGHT};
use super::table::{Place, check_grid_sizes, keeps_grid_rules};
use super::{Answer, demand, limits, refuse, room, sum, within};

/// A table for the page: `places[i].lines` is not looked at, `lengths` has
/// each cell's inner bytes.
#[derive(Clone, Debug)]
pub struct PageTable {
    pub columns: usize,
    pub rows: usize,
    pub cells: usize,
    pub bytes: usize,
    pub alignments: Vec<usize>,
    pub widths: Vec<usize>,
    pub sections: Vec<usize>,
    pub places: Vec<Place>,
    pub lengths: Vec<usize>,
    pub inner: Vec<u8>,
}

impl PageTable {
    /// Each cell's inner bytes, once the lengths are known to agree.
    pub fn inner_of_cells(&self) -> Vec<&[u8]> {
        let mut rest = &self.inner[..];
        let mut cells = vec![];
        for &length in &self.lengths {
            let (inner, after) = rest.split_at(length);
            cells.push(inner);
            rest = after;
        }
        cells
    }
}

pub fn page(table: &PageTable, widths: bool, space: usize) -> Answer<Vec<u8>> {
    demand(table.alignments.len() == table.columns)?;
    demand(table.widths.len() == table.columns)?;
    demand(table.sections.len() == table.rows)?;
    demand(table.places.len() == table.cells)?;
    demand(table.lengths.len() == table.cells)?;
    demand(table.inner.len() == table.bytes)?;
    demand(table.alignments.iter().all(|&a| a <= CENTER))?;
    demand(table.sections.iter().all(|&s| s <= FOOT))?;
    demand(sum(&table.lengths) == Some(table.bytes))?;
    check_grid_sizes(table.columns, table.rows, table.cells, &table.widths)?;
    within(table.bytes, limits::BYTES)?;
    if !keeps_grid_rules(table.columns, table.rows, &table.sections, &table.places) {
        return refuse(8, 0);
    }
    let page = written(table, widths);
    room(space, page.len())?;
    Ok(page)
}

fn written(table: &PageTable, widths: bool) -> Vec<u8> {
    let mut out = b"<table>".to_vec();
    if widths {
        out.extend(b"\n<colgroup>\n");
        let total: usize = table.widths.iter().sum();
        for &width in &table.widths {
            let share = decimal(hundredths(width, total));
            out.extend(format!("<col style=\"width:{share}%\" />\n").bytes());
        }
        out.extend(b"</colgroup>");
    }
    out.push(b'\n');

    let mut cell = 0;
    let mut at = 0;
    for row in 0..table.rows {
        let section = table.sections[row];
        let tag = ["thead", "tbody", "tfoot"][section];
        if row == 0 || table.sections[row - 1] != section {
            out.extend(format!("<{tag}>\n").bytes());
        }
        out.extend(b"<tr>\n");
        while cell < table.cells && table.places[cell].row == row {
            out.extend(opening(table, cell).bytes());
            out.extend(&table.inner[at..at + table.lengths[cell]]);
            out.extend(if section == HEAD {
                b"</th>\n"
            } else {
                b"</td>\n"
            });
            at += table.lengths[cell];
            cell += 1;
        }
        out.extend(b"</tr>\n");
        if row + 1 == table.rows || table.sections[row + 1] != section {
            out.extend(format!("</{tag}>\n").bytes());
        }
    }
    out.extend(b"</table>\n");
    out
}

fn opening(table: &PageTable, cell: usize) -> String {
    let place = &table.places[cell];
    let mut tag = String::from(match table.sections[place.row] {
        HEAD => "<th",
        BODY | FOOT => "<td",
        _ => unreachable!(),
    });
    if place.colspan > 1 {
        tag += &format!(" colspan=\"{}\"", place.colspan);
    }
    if place.rowspan > 1 {
        tag += &format!(" rowspan=\"{}\"", place.rowspan);
    }
    tag += match table.alignments[place.column] {
        LEFT => " align=\"left\"",
        RIGHT => " align=\"right\"",
        CENTER => " align=\"center\"",
        _ => "",
    };
    tag + ">"
}

/// Width times 10,000 / total, half up; 0 where the total is 0.
pub fn hundredths(width: usize, total: usize) -> usize {
    if total == 0 {
        return 0;
    }
    (2 * width * 10_000 + total) / (2 * total)
}

/// The f64 beside the hundredths.
pub fn share(hundredths: usize) -> f64 {
    hundredths as f64 / 100.0
}

/// Hundredths as a decimal number without closing zeros.
pub fn decimal(hundredths: usize) -> String {
    let whole = hundredths / 100;
    match hundredths % 100 {
        0 => format!("{whole}"),
        part if part % 10 == 0 => format!("{whole}.{}", part / 10),
        part => format!("{whole}.{part:02}"),
    }
}
