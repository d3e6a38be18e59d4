//! How long the crate's calls take on `examples/list.txt`, with one workspace
//! and with a new one for each call.
//!
//! ```sh
//! cargo run --release --example speed
//! ```

use std::fs;
use std::hint::black_box;
use std::path::Path;
use std::time::{Duration, Instant};

use gridtable::{Line, Table, Workspace, layout, redraw_sheet};

/// What a sample takes at least, so that reading the clock does not count.
const SAMPLE: Duration = Duration::from_micros(100);
const SAMPLES: usize = 5_000;

/// The medians, in microseconds, of two functions run in turns.
fn in_turns(mut one: impl FnMut(), mut other: impl FnMut()) -> (f64, f64) {
    let (calls, other_calls) = (calls(&mut one), calls(&mut other));
    let (mut samples, mut other_samples) = (vec![], vec![]);
    for _ in 0..SAMPLES {
        samples.push(time(&mut one, calls));
        other_samples.push(time(&mut other, other_calls));
    }
    (median(samples), median(other_samples))
}

fn calls(run: &mut impl FnMut()) -> u32 {
    let mut calls = 1;
    while time(run, calls) * f64::from(calls) < SAMPLE.as_secs_f64() * 1e6 {
        calls *= 2;
    }
    calls
}

/// Microseconds of one call.
fn time(run: &mut impl FnMut(), calls: u32) -> f64 {
    let start = Instant::now();
    for _ in 0..calls {
        run();
    }
    start.elapsed().as_secs_f64() * 1e6 / f64::from(calls)
}

fn median(mut samples: Vec<f64>) -> f64 {
    samples.sort_by(f64::total_cmp);
    samples[samples.len() / 2]
}

fn row(call: &str, (kept, fresh): (f64, f64)) {
    println!("| {call} | {kept:.2} | {fresh:.2} | {:.1} |", fresh / kept);
}

fn main() {
    let path = Path::new(env!("CARGO_MANIFEST_DIR")).join("../../examples/list.txt");
    let text = fs::read_to_string(path).unwrap();
    let lines: Vec<Line<'_>> = text.lines().map(Line::from).collect();
    let table = Table::read(&lines).unwrap();
    let mut kept = Workspace::new();
    println!("| Call on `examples/list.txt` | one workspace, us | a new one, us | ratio |");
    println!("|---|---:|---:|---:|");
    let one = || drop(black_box(kept.layout(black_box(&lines))));
    let new = || drop(black_box(layout(black_box(&lines))));
    row("`layout`", in_turns(one, new));
    let one = || drop(black_box(kept.read(black_box(&lines))));
    let new = || drop(black_box(Table::read(black_box(&lines))));
    row("`Table::read`", in_turns(one, new));
    let one = || drop(black_box(kept.redraw(black_box(&table), 0)));
    let new = || drop(black_box(table.redraw(black_box(0))));
    row("`Table::redraw`", in_turns(one, new));
    let one = || drop(black_box(kept.redraw_sheet(black_box(&lines), 0)));
    let new = || drop(black_box(redraw_sheet(black_box(&lines), 0)));
    row("`redraw_sheet`", in_turns(one, new));
    let one = || drop(black_box(kept.to_html(black_box(&table), true)));
    let new = || drop(black_box(table.to_html(black_box(true))));
    row("`Table::to_html`", in_turns(one, new));
}
