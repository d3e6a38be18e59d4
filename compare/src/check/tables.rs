//! Tables: the plain drawing, and redraw accepts exactly when the plain
//! drawing reads back as the same table.

use super::Tally;
use crate::given;
use crate::make::{self, Rng};
use crate::paper::redraw::{self, Space};
use crate::paper::sheet::Sheet;
use crate::paper::table::{self, Table};
use crate::paper::{Refusal, cut};

pub fn one(rng: &mut Rng, tally: &mut Tally) {
    let (table, origin) = make::tables::table(rng);
    let answer = redraw::redraw(&table, origin, Space::ENOUGH);
    tally.count("redraw", &answer);
    if let Ok(drawn) = &answer {
        let mut space = Space {
            lines: drawn.lines,
            bytes: drawn.bytes,
        };
        if rng.once_in(2) {
            space.lines -= 1;
        } else {
            space.bytes -= 1;
        }
        let short = redraw::redraw(&table, origin, space);
        tally.count("redraw", &short);
        if short.err().map(|r| r.number) != Some(12) {
            tally.differ("short space", &table, &space, &());
        }
    }
    if redraw::check_table(&table, origin).is_ok() {
        round_trip(tally, &table, origin);
    }
}

/// For a table that keeps the grid rules.
pub fn round_trip(tally: &mut Tally, table: &Table, origin: usize) {
    let redrawn = redraw::redraw(table, origin, Space::ENOUGH);
    let plain = redraw::plain(table, origin);
    if let Ok(plain) = &plain {
        let rust = given::draw(table, origin);
        if *plain != rust {
            tally.differ("plain drawing", &(table, origin), plain, &rust);
            return;
        }
    }
    if redrawn.is_ok() && redrawn != plain {
        tally.differ("redraw is the plain drawing", table, &redrawn, &plain);
    }
    // A plain drawing past the limits reads as none.
    let comes_back = match &plain {
        Ok(plain) => reads_as(tally, plain, table),
        Err(Refusal { number: 2, .. }) => false,
        Err(_) => unreachable!(),
    };
    if redrawn.is_ok() != comes_back {
        tally.differ("round trip", &(table, origin), &redrawn, &comes_back);
    }
}

/// Whether the Rust, cutting included, reads a drawing as this table.
fn reads_as(tally: &mut Tally, plain: &Sheet, table: &Table) -> bool {
    let paper = cut::read_table(plain);
    let same = paper.as_ref().is_ok_and(|read| table::same(read, table));
    let rust = given::layout(plain).map(|layout| cut::table_of(plain, &layout));
    let rust_same = rust.as_ref().is_some_and(|read| table::same(read, table));
    if same != rust_same {
        tally.differ("reading back", plain, &paper, &rust);
    }
    same
}
