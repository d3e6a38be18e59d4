//! `compare speed`: the layout call beside the Rust's `layout`, the table call
//! beside the Rust's layout and fragments, the redraw calls beside its drawing,
//! and the calls beside the round trip, on the same inputs, in turns.

mod beside;
mod inputs;
mod redraws;
mod tables;

use std::hint::black_box;
use std::time::{Duration, Instant};

use crate::library::{
    self, Drawing, LayoutReply, MoreSpace, Output, Space, TableOutput, TableReply,
};
use crate::paper::limits;
use crate::paper::sheet::Sheet;
use crate::parser::grid_table::{self, ReadyLines};

/// What a sample takes at least, so that reading the clock does not count.
const SAMPLE: Duration = Duration::from_micros(40);
/// How long the samples of one row take, both sides together.
const ROW: Duration = Duration::from_millis(1_500);

/// Times the drawings and tables whose names have this word.
pub fn run(word: &str) -> bool {
    if cfg!(debug_assertions) {
        println!("(not built by --profile speed: the Rust has its own checks on)");
    }
    let mut lent = Lent::new();
    heading("Drawing, to its layout");
    for (name, lines) in inputs::all() {
        if name.contains(word) {
            measure(&name, &Sheet::of(&lines), &mut lent);
        }
    }
    println!();
    heading("Drawing, to its table");
    for (name, lines) in inputs::all() {
        if name.contains(word) && !name.starts_with("growth") {
            measure_table(&name, &Sheet::of(&lines), &mut lent);
        }
    }
    redraws::run(word);
    beside::run(word);
    true
}

fn heading(what: &str) {
    println!("| {what} | lines | width | cells | Rust, us | ours, us | ratio |");
    println!("|---|---:|---:|---:|---:|---:|---:|");
}

/// Prints a row: medians in microseconds.
fn row(name: &str, sheet: &Sheet, answer: (usize, usize), (rust, ours): (f64, f64)) {
    let (number, cells) = answer;
    let cells = match number {
        0 => cells.to_string(),
        number => format!("refused {number}"),
    };
    println!(
        "| {name} | {} | {} | {cells} | {rust:.2} | {ours:.2} | {:.2} |",
        sheet.lines,
        sheet.line(0).len(),
        ours / rust
    );
}

/// Working space and outputs, lent to each call anew.
struct Lent {
    glyphs: Vec<u8>,
    offsets: Vec<u16>,
    down: Vec<u8>,
    right: Vec<u8>,
    rects: Vec<u8>,
    columns: Vec<u16>,
    rows: Vec<u16>,
    cells: Vec<u16>,
    ranges: Vec<u16>,
    starts: Vec<u16>,
    counts: Vec<u8>,
    sections: Vec<u8>,
    lengths: Vec<u16>,
    text: Vec<u8>,
}

impl Lent {
    fn new() -> Lent {
        Lent {
            glyphs: vec![0; library::SLOT_SPACE],
            offsets: vec![0; library::SLOT_SPACE],
            down: vec![0; library::SLOT_SPACE],
            right: vec![0; library::SLOT_SPACE],
            rects: vec![0; library::RECT_SPACE],
            columns: vec![0; 2 * limits::COLUMNS],
            rows: vec![0; 3 * limits::ROWS],
            cells: vec![0; 5 * limits::CELLS],
            ranges: vec![0; 2 * limits::LINES * limits::WIDTH],
            starts: vec![0; library::START_SPACE],
            counts: vec![0; library::COUNT_SPACE],
            sections: vec![0; limits::ROWS],
            lengths: vec![0; limits::TABLE_LINES],
            text: vec![0; limits::BYTES],
        }
    }

    fn layout(&mut self, drawing: Drawing<'_>) -> LayoutReply {
        let space = Space {
            glyphs: &mut self.glyphs,
            offsets: &mut self.offsets,
            down: &mut self.down,
            right: &mut self.right,
            rects: &mut self.rects,
        };
        let output = Output {
            columns: &mut self.columns,
            rows: &mut self.rows,
            cells: &mut self.cells,
            ranges: &mut self.ranges,
        };
        library::layout(drawing, space, output)
    }

    fn table(&mut self, drawing: Drawing<'_>) -> TableReply {
        let space = Space {
            glyphs: &mut self.glyphs,
            offsets: &mut self.offsets,
            down: &mut self.down,
            right: &mut self.right,
            rects: &mut self.rects,
        };
        let output = TableOutput {
            columns: &mut self.columns,
            sections: &mut self.sections,
            cells: &mut self.cells,
            lengths: &mut self.lengths,
            text: &mut self.text,
        };
        let more = MoreSpace {
            starts: &mut self.starts,
            counts: &mut self.counts,
        };
        library::table(drawing, space, more, output)
    }
}

/// A sheet's lines as the Rust takes them, and its arrays as ours does.
struct Both<'t> {
    texts: Vec<(&'t str, usize)>,
    lengths: Vec<u16>,
    columns: Vec<u16>,
    sheet: &'t Sheet,
}

impl Both<'_> {
    fn new(sheet: &Sheet) -> Both<'_> {
        let number = |&n: &usize| u16::try_from(n).unwrap();
        let text = |r: usize| std::str::from_utf8(sheet.line(r)).unwrap();
        Both {
            texts: (0..sheet.lines)
                .map(|r| (text(r), sheet.columns[r]))
                .collect(),
            lengths: sheet.lengths.iter().map(number).collect(),
            columns: sheet.columns.iter().map(number).collect(),
            sheet,
        }
    }

    fn drawing(&self) -> Drawing<'_> {
        Drawing {
            lines: self.sheet.lines,
            bytes: self.sheet.bytes,
            lengths: &self.lengths,
            columns: &self.columns,
            text: &self.sheet.text,
        }
    }
}

fn measure(name: &str, sheet: &Sheet, lent: &mut Lent) {
    let both = Both::new(sheet);
    let ready = ReadyLines::new(&both.texts);
    let drawing = both.drawing();
    let reply = lent.layout(drawing);
    assert_eq!(ready.layout().is_some(), reply.number == 0);
    let times = in_turns(
        || black_box(&ready).layout(),
        || lent.layout(black_box(drawing)),
    );
    row(name, sheet, (reply.number, reply.cells), times);
}

fn measure_table(name: &str, sheet: &Sheet, lent: &mut Lent) {
    let both = Both::new(sheet);
    let drawing = both.drawing();
    let reply = lent.table(drawing);
    let times = grid_table::with_ready_table(&both.texts, |ready| {
        match ready.read() {
            Some(read) => assert_eq!(read.size(), (reply.cells, reply.bytes)),
            None => assert_ne!(reply.number, 0),
        }
        in_turns(
            || black_box(&ready).read(),
            || lent.table(black_box(drawing)),
        )
    });
    row(name, sheet, (reply.number, reply.cells), times);
}

/// The medians of the two calls, in microseconds.
fn in_turns<A, B>(mut rust: impl FnMut() -> A, mut ours: impl FnMut() -> B) -> (f64, f64) {
    // What the Rust answers is kept until the clock has been read, so that
    // dropping it does not count.
    let mut kept = Vec::with_capacity(1 << 16);
    let mut rust = |times: usize| {
        let start = Instant::now();
        for _ in 0..times {
            kept.push(rust());
        }
        let took = start.elapsed();
        kept.clear();
        took
    };
    let mut ours = |times: usize| {
        let start = Instant::now();
        for _ in 0..times {
            black_box(ours());
        }
        start.elapsed()
    };
    let (rust_times, ours_times) = (times(&mut rust), times(&mut ours));
    let (mut rust_samples, mut ours_samples) = (vec![], vec![]);
    let start = Instant::now();
    while start.elapsed() < ROW {
        rust_samples.push(rust(rust_times).as_secs_f64() / rust_times as f64);
        ours_samples.push(ours(ours_times).as_secs_f64() / ours_times as f64);
    }
    (median(rust_samples) * 1e6, median(ours_samples) * 1e6)
}

/// How many calls make a sample.
fn times(call: &mut dyn FnMut(usize) -> Duration) -> usize {
    let mut times = 1;
    while times < 1 << 16 && call(times) < SAMPLE {
        times *= 2;
    }
    times
}

fn median(mut samples: Vec<f64>) -> f64 {
    samples.sort_by(f64::total_cmp);
    samples[samples.len() / 2]
}
