//! The calls beside the round trip: positions beside the library's own table
//! call, the page, finding a line end and shares beside the Rust.

use std::hint::black_box;

use super::{Both, Lent, in_turns, inputs, row, tables};
use crate::given;
use crate::library::beside::{
    self, PageArrays, Placed, PositionsOutput, PositionsReply, Register, find_line_end, share,
};
use crate::library::{Drawing, Space};
use crate::paper::flat_page::FlatPage;
use crate::paper::limits;
use crate::paper::page::PageTable;
use crate::paper::sheet::Sheet;
use crate::paper::table::Table;
use crate::parser::grid_table;

/// Times the inputs whose names have this word.
pub fn run(word: &str) {
    positions(word);
    pages(word);
    if "finding a line end".contains(word) {
        line_ends();
    }
    if "shares".contains(word) {
        shares();
    }
}

fn positions(word: &str) {
    println!();
    println!(
        "| Drawing, to its positions | lines | width | cells | table, us | positions, us | ratio |"
    );
    println!("|---|---:|---:|---:|---:|---:|---:|");
    let mut table_lent = Lent::new();
    let mut lent = PositionsLent::new();
    for (name, lines) in inputs::all() {
        if !name.contains(word) || name.starts_with("growth") {
            continue;
        }
        let sheet = Sheet::of(&lines);
        let both = Both::new(&sheet);
        let drawing = both.drawing();
        let reply = lent.positions(drawing);
        assert_eq!(reply.number, table_lent.table(drawing).number);
        let times = in_turns(
            || table_lent.table(black_box(drawing)),
            || lent.positions(black_box(drawing)),
        );
        row(&name, &sheet, (reply.number, reply.cells), times);
    }
}

/// Lines numbered from 1, at table byte 0; outputs; working space.
struct PositionsLent {
    numbers: Vec<u32>,
    table_bytes: Vec<u32>,
    rows: Vec<u32>,
    cells: Vec<u32>,
    space: Lent,
}

impl PositionsLent {
    fn new() -> PositionsLent {
        PositionsLent {
            numbers: (1..=limits::LINES as u32).collect(),
            table_bytes: vec![0; limits::LINES],
            rows: vec![0; 4 * limits::ROWS],
            cells: vec![0; 4 * limits::CELLS],
            space: Lent::new(),
        }
    }

    fn positions(&mut self, drawing: Drawing<'_>) -> PositionsReply {
        let placed = Placed {
            drawing,
            numbers: &self.numbers[..drawing.lines],
            table_bytes: &self.table_bytes[..drawing.lines],
        };
        let space = Space {
            glyphs: &mut self.space.glyphs,
            offsets: &mut self.space.offsets,
            down: &mut self.space.down,
            right: &mut self.space.right,
            rects: &mut self.space.rects,
        };
        let output = PositionsOutput {
            rows: &mut self.rows,
            cells: &mut self.cells,
        };
        beside::positions(placed, space, &mut self.space.starts, output)
    }
}

fn pages(word: &str) {
    println!();
    println!(
        "| Table, to its page | columns | rows | cells | bytes | Rust, us | ours, us | ratio |"
    );
    println!("|---|---:|---:|---:|---:|---:|---:|---:|");
    let wide = ("127 columns by 8 rows", tables::even(8, 127, 128, "ab"));
    let cases = tables::all()
        .into_iter()
        .map(|case| (case.name, case.table))
        .chain([wide]);
    for (name, table) in cases {
        if name.contains(word) && !name.starts_with("growth") {
            measure_page(name, &table);
        }
    }
}

/// The lines of each cell are its inner bytes, each with a line feed.
fn contents(table: &Table) -> Vec<String> {
    let all = table.all_lines();
    let mut start = 0;
    let mut contents = vec![];
    for place in &table.places {
        let mut inner = String::new();
        for line in &all[start..start + place.lines] {
            inner += std::str::from_utf8(line).unwrap();
            inner += "\n";
        }
        contents.push(inner);
        start += place.lines;
    }
    contents
}

fn measure_page(name: &str, table: &Table) {
    let contents = contents(table);
    let inner: Vec<u8> = contents.concat().into_bytes();
    let page = PageTable {
        columns: table.columns,
        rows: table.rows,
        cells: table.cells,
        bytes: inner.len(),
        alignments: table.alignments.clone(),
        widths: table.widths.clone(),
        sections: table.sections.clone(),
        places: table.places.clone(),
        lengths: contents.iter().map(String::len).collect(),
        inner,
    };
    let flat = FlatPage::of(&page);
    let arrays = PageArrays {
        sizes: flat.sizes,
        columns: &flat.columns,
        sections: &flat.sections,
        cells: &flat.cells,
        inner: &flat.inner,
    };
    let (bytes, (rust, ours)) = given::with_page(&page, true, contents, |page| {
        let expected = page();
        let mut out = vec![0; expected.len()];
        let reply = beside::page(true, arrays, &mut out);
        assert_eq!((reply.number, &out[..]), (0, expected.as_bytes()));
        let times = in_turns(
            || black_box(page)(),
            || beside::page(true, black_box(arrays), &mut out),
        );
        (out.len(), times)
    });
    println!(
        "| {name} | {} | {} | {} | {bytes} | {rust:.2} | {ours:.2} | {:.2} |",
        table.columns,
        table.rows,
        table.cells,
        ours / rust
    );
}

/// Four ends a line; the last one is found, or all are.
fn line_ends() {
    println!();
    println!("| Finding line ends | ends | breaks | Rust, us | ours, us | ratio |");
    println!("|---|---:|---:|---:|---:|---:|");
    for count in [8, 64, 1_024] {
        let ends: Vec<(usize, usize, usize)> = (0..count)
            .map(|i| (1 + i / 4, 1 + 30 * (i % 4), 30 + 30 * (i % 4)))
            .collect();
        let asked: Vec<(usize, usize)> = ends.iter().map(|end| (end.0, end.2 - 5)).collect();
        measure_find("one break", &ends, &asked[count - 1..]);
        measure_find("a break at each end", &ends, &asked);
    }
}

fn measure_find(name: &str, ends: &[(usize, usize, usize)], asked: &[(usize, usize)]) {
    let array = |pick: fn(&(usize, usize, usize)) -> usize| -> Vec<u32> {
        let mut held: Vec<u32> = ends.iter().map(|end| pick(end) as u32).collect();
        held.resize(limits::REGISTER, 0);
        held
    };
    let (lines, starts, eols) = (array(|e| e.0), array(|e| e.1), array(|e| e.2));
    let register = Register {
        count: ends.len(),
        lines: &lines,
        starts: &starts,
        eols: &eols,
    };
    let places: Vec<(u32, u32)> = asked.iter().map(|p| (p.0 as u32, p.1 as u32)).collect();
    let find_all = |register: Register<'_>| -> usize {
        let found = places.iter().map(|&place| find_line_end(register, place));
        found.map(|reply| reply.eol as usize).sum()
    };
    let rust = grid_table::find_line_ends(ends, asked);
    let eols = rust.iter().map(|found| found[0].unwrap());
    assert_eq!(find_all(register), eols.sum());
    let (rust, ours) = grid_table::with_line_ends(ends, asked, |place| {
        in_turns(
            || black_box(&mut *place)(),
            || find_all(black_box(register)),
        )
    });
    println!(
        "| {name} | {} | {} | {rust:.2} | {ours:.2} | {:.2} |",
        ends.len(),
        asked.len(),
        ours / rust
    );
}

fn shares() {
    println!();
    println!("| Shares | total | Rust, us | ours, us | ratio |");
    println!("|---|---:|---:|---:|---:|");
    for total in [3, 1_000, 16_256] {
        let widths = 0..=limits::WIDTH as u16;
        let rust = |total: u32| -> f64 {
            let hundredths = |w: u16| (1e4 * f64::from(w) / f64::from(total)).round();
            let widths = widths.clone();
            widths.map(|w| hundredths(black_box(w)) / 1e2).sum()
        };
        let ours = |total: u32| -> f64 {
            let widths = widths.clone();
            widths.map(|w| share(black_box(w), total).percent).sum()
        };
        assert_eq!(rust(total), ours(total));
        let (rust, ours) = in_turns(|| rust(black_box(total)), || ours(black_box(total)));
        let ratio = ours / rust;
        println!("| widths 0 to 128 | {total} | {rust:.2} | {ours:.2} | {ratio:.2} |");
    }
}
