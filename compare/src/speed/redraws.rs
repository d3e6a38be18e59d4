//! The redraw call beside the Rust's `format_grid_table`; and the call from a
//! drawing to its redrawing beside the Rust's layout, fragments and drawing.

use std::hint::black_box;

use super::tables::{self, Case};
use super::{Both, heading, in_turns, row};
use crate::given;
use crate::library::{
    self, COUNT_SPACE, DRAW_SPACE, DrawOutput, DrawSpace, Drawing, FlatTable, MoreSpace,
    RECT_SPACE, RedrawReply, SLOT_SPACE, START_SPACE, SheetReply, Space, TABLE_SPACE, TableOutput,
};
use crate::paper::flat::Flat;
use crate::paper::limits;
use crate::paper::table::same;
use crate::parser::grid_table;

/// Times the tables whose names have this word.
pub fn run(word: &str) {
    let mut lent = Lent::new();
    let cases = tables::all();
    let named = || cases.iter().filter(|case| case.name.contains(word));
    println!();
    heading("Table, to its drawing");
    for case in named() {
        measure(case, &mut lent);
    }
    println!();
    heading("Drawing, to its redrawing");
    for case in named() {
        measure_sheet(case, &mut lent);
    }
}

/// Working space and outputs, lent to each call anew.
struct Lent {
    narrow: [Vec<u8>; 4],
    offsets: Vec<u16>,
    read_starts: Vec<u16>,
    counts: Vec<u8>,
    columns: Vec<u16>,
    sections: Vec<u8>,
    cells: Vec<u16>,
    table_lengths: Vec<u16>,
    table_text: Vec<u8>,
    drawing: DrawLent,
}

/// What both calls are lent.
struct DrawLent {
    space: [Vec<u16>; 6],
    rects: Vec<u8>,
    lengths: Vec<u16>,
    line_columns: Vec<u16>,
    text: Vec<u8>,
}

impl DrawLent {
    fn new() -> DrawLent {
        let [starts, ends, firsts, heights, wides, rects, canvas] = DRAW_SPACE;
        DrawLent {
            space: [starts, ends, firsts, heights, wides, canvas].map(|n| vec![0; n]),
            rects: vec![0; rects],
            lengths: vec![0; limits::LINES],
            line_columns: vec![0; limits::LINES],
            text: vec![0; limits::BYTES],
        }
    }

    fn lend(&mut self) -> (DrawSpace<'_>, DrawOutput<'_>) {
        let [starts, ends, firsts, heights, wides, canvas] = &mut self.space;
        let space = DrawSpace {
            starts,
            ends,
            firsts,
            heights,
            wides,
            rects: &mut self.rects,
            canvas,
        };
        let output = DrawOutput {
            lengths: &mut self.lengths,
            columns: &mut self.line_columns,
            text: &mut self.text,
        };
        (space, output)
    }

    /// Whether the drawing is that of the Rust, whose lines end with a feed.
    fn holds(&self, lines: usize, rust: &str) -> bool {
        let mut start = 0;
        let mut drawn = vec![];
        for &length in &self.lengths[..lines] {
            let end = start + usize::from(length);
            drawn.extend(&self.text[start..end]);
            drawn.push(b'\n');
            start = end;
        }
        drawn == rust.as_bytes()
    }
}

impl Lent {
    fn new() -> Lent {
        let [columns, sections, cells, lengths, text] = TABLE_SPACE;
        Lent {
            narrow: [SLOT_SPACE, SLOT_SPACE, SLOT_SPACE, RECT_SPACE].map(|n| vec![0; n]),
            offsets: vec![0; SLOT_SPACE],
            read_starts: vec![0; START_SPACE],
            counts: vec![0; COUNT_SPACE],
            columns: vec![0; columns],
            sections: vec![0; sections],
            cells: vec![0; cells],
            table_lengths: vec![0; lengths],
            table_text: vec![0; text],
            drawing: DrawLent::new(),
        }
    }

    fn redraw(&mut self, table: FlatTable<'_>) -> RedrawReply {
        let (space, output) = self.drawing.lend();
        library::redraw(table, 0, space, output)
    }

    fn redraw_sheet(&mut self, drawing: Drawing<'_>) -> SheetReply {
        let [glyphs, down, right, rects] = &mut self.narrow;
        let reading = Space {
            glyphs,
            offsets: &mut self.offsets,
            down,
            right,
            rects,
        };
        let more = MoreSpace {
            starts: &mut self.read_starts,
            counts: &mut self.counts,
        };
        let between = TableOutput {
            columns: &mut self.columns,
            sections: &mut self.sections,
            cells: &mut self.cells,
            lengths: &mut self.table_lengths,
            text: &mut self.table_text,
        };
        let (space, output) = self.drawing.lend();
        library::redraw_sheet(drawing, 0, (reading, more), between, space, output)
    }
}

fn measure(case: &Case, lent: &mut Lent) {
    let flat = Flat::of(&case.table);
    let table = FlatTable {
        sizes: flat.sizes,
        columns: &flat.columns,
        sections: &flat.sections,
        cells: &flat.cells,
        lengths: &flat.lengths,
        text: &flat.text,
    };
    let reply = lent.redraw(table);
    let times = given::with_drawing(&case.table, 0, |draw| {
        assert!(reply.number != 0 || lent.drawing.holds(reply.lines, &draw()));
        in_turns(|| black_box(draw)(), || lent.redraw(black_box(table)))
    });
    row(
        case.name,
        &case.sheet,
        (reply.number, case.table.cells),
        times,
    );
}

fn measure_sheet(case: &Case, lent: &mut Lent) {
    let both = Both::new(&case.sheet);
    let drawing = both.drawing();
    let table = given::table(&case.sheet).unwrap();
    assert!(same(&table, &case.table));
    let reply = lent.redraw_sheet(drawing);
    let times = grid_table::with_ready_table(&both.texts, |ready| {
        given::with_drawing(&table, 0, |draw| {
            assert!(reply.number != 0 || lent.drawing.holds(reply.lines, &draw()));
            in_turns(
                || (black_box(&ready).read(), black_box(draw)()),
                || lent.redraw_sheet(black_box(drawing)),
            )
        })
    });
    row(case.name, &case.sheet, (reply.number, table.cells), times);
}
