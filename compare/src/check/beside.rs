//! Cutting any line, line ends, shares and the page.

use super::Tally;
use crate::given;
use crate::make::ends::Numbers;
use crate::make::{self, Rng, text};
use crate::paper::cut::{self, Line};
use crate::paper::layout::{BODY, NONE};
use crate::paper::page::{self, PageTable};
use crate::paper::table::Place;
use crate::paper::{ends, limits};
use crate::parser::grid_table::{self, PlacedLine};

pub fn one(rng: &mut Rng, tally: &mut Tally) {
    cut_any(rng, tally);
    find_and_remap(rng, tally);
    pages(rng, tally);
    share(rng, tally);
}

fn cut_any(rng: &mut Rng, tally: &mut Tally) {
    let kind = text::kind(rng);
    let length = rng.between(0, 12);
    let mut text = text::line(rng, kind, length);
    if rng.once_in(40) {
        text = " ".repeat(rng.between(511, 513));
    }
    let mut range = (rng.below(text.len() + 1), rng.below(text.len() + 1));
    if rng.once_in(10) {
        range.1 += 1;
    } else if range.0 > range.1 {
        range = (range.1, range.0);
    }
    let left = rng.pick(&[0, 1, 2, 3, 126, 127]) + usize::from(rng.once_in(20));
    let number = |rng: &mut Rng| rng.pick(&[0, 1, 65_535]) + usize::from(rng.once_in(20));
    let line = Line {
        text: text.as_bytes(),
        line: number(rng),
        byte: number(rng),
        column: rng.pick(&[0, 1, 2, 3, 254, 255]) + usize::from(rng.once_in(20)),
    };
    let answer = cut::cut(&line, range, left);
    tally.count("cut", &answer);
    let Ok(paper) = answer else {
        return;
    };
    let placed = PlacedLine {
        text: &text,
        line: line.line,
        byte: line.byte,
        column: line.column,
    };
    let rust = grid_table::cut(placed, range, left);
    let view = text[paper.start..paper.end].to_string();
    if (view, paper.line, paper.byte, paper.column) != rust {
        tally.differ("cut", &(line, range, left), &paper, &rust);
    }
}

fn find_and_remap(rng: &mut Rng, tally: &mut Tally) {
    let numbers = Numbers::new(rng);
    let mut register = vec![];
    let count = if rng.once_in(2_000) {
        limits::REGISTER + 1
    } else {
        rng.between(0, 8)
    };
    for _ in 0..count {
        let end = numbers.end(rng, 2);
        let answer = ends::add(&register, end);
        tally.count("add", &answer);
        if let Ok(longer) = answer {
            register = longer;
        }
        if count > limits::REGISTER && register.len() < limits::REGISTER {
            register.push((1, 1, 1));
        }
    }
    register.extend(numbers.strays(rng));
    for _ in 0..4 {
        let (line, column) = numbers.asked(rng);
        let answer = ends::find(&register, line, column);
        tally.count("find", &answer);
        if let Ok(paper) = answer {
            let rust = grid_table::find_line_ends(&register, &[(line, column)])[0];
            if [paper; 2] != rust {
                tally.differ("find", &(&register, line, column), &paper, &rust);
            }
        }
    }

    let fragments = numbers.fragments(rng);
    let end = numbers.end(rng, 4);
    let answer = ends::remap(end, &fragments);
    tally.count("remap", &answer);
    if let Ok(paper) = answer {
        let rust = grid_table::remap(end, &fragments);
        if paper != rust {
            tally.differ("remap", &(end, fragments), &paper, &rust);
        }
    }
}

fn pages(rng: &mut Rng, tally: &mut Tally) {
    let page_table = make::pages::table(rng);
    let widths = rng.once_in(2);
    let answer = page::page(&page_table, widths, usize::MAX);
    tally.count("page", &answer);
    if let Ok(paper) = answer {
        let short = page::page(&page_table, widths, paper.len() - 1);
        tally.count("page", &short);
        // With a total of 0 the Rust prints NaN.
        let total: usize = page_table.widths.iter().sum();
        let rust = given::page(&page_table, widths);
        if paper != rust && !(widths && total == 0) {
            tally.differ("page", &page_table, &paper, &rust);
        }
    }
}

/// A column's share, as the Rust prints it for two columns.
fn share(rng: &mut Rng, tally: &mut Tally) {
    let total = rng.between(1, limits::COLUMNS * limits::WIDTH);
    let width = rng.between(0, total.min(limits::WIDTH));
    let place = |column: usize| Place {
        row: 0,
        column,
        colspan: 1,
        rowspan: 1,
        lines: 0,
    };
    let table = PageTable {
        columns: 2,
        rows: 1,
        cells: 2,
        bytes: 0,
        alignments: vec![NONE; 2],
        widths: vec![width, total - width],
        sections: vec![BODY],
        places: vec![place(0), place(1)],
        lengths: vec![0; 2],
        inner: vec![],
    };
    let page = String::from_utf8(given::page(&table, true)).unwrap();
    let (_, rest) = page.split_once("width:").unwrap();
    let (printed, _) = rest.split_once('%').unwrap();
    let hundredths = page::hundredths(width, total);
    let agrees = page::decimal(hundredths) == printed
        && printed.parse::<f64>() == Ok(page::share(hundredths));
    if !agrees {
        tally.differ("share", &(width, total), &hundredths, &printed);
    }
}
