//! The table call on whole drawings.

use super::lent::{Inputs, WORKING, Working, fill, written};
use crate::against::guarded::{GUARD, Guarded, WIDE_GUARD};
use crate::library::{self, COUNT_SPACE, MoreSpace, TableOutput, TableReply};
use crate::make::Rng;
use crate::paper::layout::Layout;
use crate::paper::sheet::Sheet;
use crate::paper::{self, Answer, Refusal};
use crate::parser::grid_table::Built;
use crate::tally::Tally;

/// A call's answer, and what it writes.
#[derive(Debug)]
pub struct Expected {
    pub reply: TableReply,
    pub columns: Vec<u16>,
    pub sections: Vec<u8>,
    pub cells: Vec<u16>,
    pub lengths: Vec<u16>,
    pub text: Vec<u8>,
}

impl Expected {
    fn refused(refusal: Refusal) -> Expected {
        Expected {
            reply: TableReply {
                number: refusal.number,
                place: refusal.place,
                ..TableReply::default()
            },
            columns: vec![],
            sections: vec![],
            cells: vec![],
            lengths: vec![],
            text: vec![],
        }
    }

    fn output(&self) -> [usize; 5] {
        [
            self.columns.len(),
            self.sections.len(),
            self.cells.len(),
            self.lengths.len(),
            self.text.len(),
        ]
    }
}

/// The flat table out of the Rust's layout and its fragments. None where the
/// second reading has another.
pub fn expected(sheet: &Sheet, answer: &Answer<Layout>, built: Option<&Built>) -> Option<Expected> {
    let read = match answer {
        Err(refusal) => return Some(Expected::refused(*refusal)),
        Ok(read) => read,
    };
    let n = |number: usize| u16::try_from(number).unwrap();
    let mut table = Expected::refused(Refusal {
        number: 0,
        place: 0,
    });
    for column in &read.columns {
        table.columns.extend([n(column.alignment), n(column.width)]);
    }
    for row in &read.rows {
        table.sections.push(u8::try_from(row.section).unwrap());
    }
    for (cell, (_, cuts)) in read.cells.iter().zip(&built?.cells) {
        let kept = cuts.iter().rposition(|cut| !cut.0.is_empty());
        let kept = kept.map_or(0, |last| last + 1);
        let place = [cell.row, cell.column, cell.colspan, cell.rowspan, kept];
        table.cells.extend(place.map(n));
        for (line, ..) in &cuts[..kept] {
            table.lengths.push(n(line.len()));
            table.text.extend(line.bytes());
        }
    }
    table.reply = TableReply {
        number: 0,
        place: 0,
        columns: read.columns.len(),
        rows: read.rows.len(),
        cells: read.cells.len(),
        lines: table.lengths.len(),
        bytes: table.text.len(),
    };
    agrees(&table, &paper::cut::table_of(sheet, read)).then_some(table)
}

fn agrees(table: &Expected, paper: &paper::table::Table) -> bool {
    let numbers = |array: &[u16]| -> Vec<usize> { array.iter().map(|&e| e.into()).collect() };
    let columns = paper.alignments.iter().zip(&paper.widths);
    let columns: Vec<usize> = columns.flat_map(|(&a, &w)| [a, w]).collect();
    let places = paper.places.iter();
    let places: Vec<usize> = places
        .flat_map(|p| [p.row, p.column, p.colspan, p.rowspan, p.lines])
        .collect();
    let sections = table.sections.iter().map(|&s| usize::from(s));
    numbers(&table.columns) == columns
        && sections.eq(paper.sections.iter().copied())
        && numbers(&table.cells) == places
        && numbers(&table.lengths) == paper.lengths
        && table.text == paper.text
}

#[derive(Clone, Copy, Debug)]
struct Lengths {
    space: [usize; 6],
    counts: usize,
    output: [usize; 5],
}

/// Buffers between guards.
pub struct Tables {
    pub calls: usize,
    inputs: Inputs,
    working: Working,
    counts: Guarded<u8>,
    out_columns: Guarded<u16>,
    out_sections: Guarded<u8>,
    out_cells: Guarded<u16>,
    out_lengths: Guarded<u16>,
    out_text: Guarded<u8>,
    /// What the output arrays hold before the call: another value each time.
    filling: u16,
}

impl Tables {
    pub fn new() -> Tables {
        let narrow = || Guarded::new(GUARD);
        let wide = || Guarded::new(WIDE_GUARD);
        Tables {
            calls: 0,
            inputs: Inputs::new(),
            working: Working::new(),
            counts: narrow(),
            out_columns: wide(),
            out_sections: narrow(),
            out_cells: wide(),
            out_lengths: wide(),
            out_text: narrow(),
            filling: 0,
        }
    }

    /// The calls on one drawing: with output space enough; with short working
    /// space; and, where it is accepted, with short output arrays.
    pub fn sheet(&mut self, rng: &mut Rng, tally: &mut Tally, sheet: &Sheet, expected: &Expected) {
        let mut lengths = Lengths {
            space: WORKING,
            counts: COUNT_SPACE,
            output: expected.output(),
        };
        let more: &[usize] = match expected.reply.number {
            0 => &[0, 0, 1, 2, 5, 40],
            _ => &[0, 3, 20, 60, 200],
        };
        for length in &mut lengths.output {
            *length += rng.pick(more);
        }
        if rng.once_in(4) {
            lengths.space[rng.below(6)] += rng.between(1, 40);
            lengths.counts += rng.below(3);
        }
        self.call("tables", tally, sheet, expected, lengths);

        if rng.once_in(8) {
            let mut short = lengths;
            match rng.below(7) {
                6 => short.counts = rng.shorter(COUNT_SPACE),
                i => short.space[i] = rng.shorter(WORKING[i]),
            }
            let refused = Expected::refused(Refusal {
                number: 13,
                place: 0,
            });
            self.call("tables: short working space", tally, sheet, &refused, short);
        }
        if expected.reply.number != 0 {
            return;
        }
        for (i, need) in expected.output().into_iter().enumerate() {
            if need == 0 || !rng.once_in(3) {
                continue;
            }
            let mut short = lengths;
            short.output[i] = rng.shorter(need);
            let refused = Expected::refused(Refusal {
                number: 12,
                place: 0,
            });
            self.call("tables: short outputs", tally, sheet, &refused, short);
        }
    }

    fn call(
        &mut self,
        kind: &'static str,
        tally: &mut Tally,
        sheet: &Sheet,
        expected: &Expected,
        lengths: Lengths,
    ) {
        self.calls += 1;
        tally.count(kind, "table", expected.reply.number);
        let got = self.run(sheet, lengths);
        if got != expected.reply {
            tally.differ("table", sheet, &expected.reply, &got);
        }
        if let Some(array) = self.changed(sheet, lengths, expected) {
            tally.differ(array, sheet, expected, &lengths);
        }
    }

    fn run(&mut self, sheet: &Sheet, lengths: Lengths) -> TableReply {
        self.filling = self.filling.wrapping_add(0x3D1);
        let low = self.filling as u8;
        let [columns, sections, cells, line_lengths, text] = lengths.output;
        fill(&mut self.out_columns, columns, self.filling);
        fill(&mut self.out_sections, sections, low);
        fill(&mut self.out_cells, cells, self.filling);
        fill(&mut self.out_lengths, line_lengths, self.filling);
        fill(&mut self.out_text, text, low);

        let drawing = self.inputs.drawing(sheet);
        let (space, starts) = self.working.lend(lengths.space);
        self.counts.lend(lengths.counts);
        let output = TableOutput {
            columns: self.out_columns.entries(columns),
            sections: self.out_sections.entries(sections),
            cells: self.out_cells.entries(cells),
            lengths: self.out_lengths.entries(line_lengths),
            text: self.out_text.entries(text),
        };
        let more = MoreSpace {
            starts,
            counts: self.counts.entries(lengths.counts),
        };
        library::table(drawing, space, more, output)
    }

    /// The first buffer that is not as it must be after the call.
    fn changed(
        &mut self,
        sheet: &Sheet,
        lengths: Lengths,
        expected: &Expected,
    ) -> Option<&'static str> {
        let lent = self.inputs.changed(sheet);
        let lent = lent.or_else(|| self.working.changed(lengths.space));
        if lent.is_some() {
            return lent;
        }
        if !self.counts.guards_kept(lengths.counts) {
            return Some("counts");
        }
        let low = self.filling as u8;
        let [columns, sections, cells, line_lengths, text] = lengths.output;
        if !written(
            &mut self.out_columns,
            columns,
            &expected.columns,
            self.filling,
        ) {
            return Some("table columns");
        }
        if !written(&mut self.out_sections, sections, &expected.sections, low) {
            return Some("table sections");
        }
        if !written(&mut self.out_cells, cells, &expected.cells, self.filling) {
            return Some("table cells");
        }
        if !written(
            &mut self.out_lengths,
            line_lengths,
            &expected.lengths,
            self.filling,
        ) {
            return Some("table lengths");
        }
        if !written(&mut self.out_text, text, &expected.text, low) {
            return Some("table text");
        }
        None
    }
}
