//! The cases of the page: the papers' tables, shares as they are printed, each
//! refusal and each two of them at once, the grid rules, the limits, short
//! arrays, and tables of every kind.

use super::runs;
use crate::beside::pages;
use crate::beside::shares::row;
use crate::lists::layout::packed;
use crate::lists::{FAR, List, refused};
use crate::make::{self, Rng, edge};
use crate::paper::flat_page::FlatPage;
use crate::paper::layout::{BODY, CENTER, FOOT, HEAD, LEFT, NONE, RIGHT};
use crate::paper::page::PageTable;
use crate::paper::table::Place;
use crate::paper::{Answer, limits, refuse};
use crate::print::escaped;
use crate::tally::Tally;

/// The longest output that the list's program has.
const ENOUGH: usize = 65_536;

pub fn cases(list: &mut List) {
    for (table, _) in edge::tables() {
        list.pages(&escaped(&table));
    }
    shares(list);
    orders(list);
    rules(list);
    sizes(list);
    outputs(list);
    for table in at_limits() {
        list.page(&FlatPage::of(&table), true, ENOUGH);
    }
    attributes(list);
    let mut rng = Rng::new(18);
    for _ in 0..180 {
        let flat = FlatPage::of(&make::pages::table(&mut rng));
        list.add_short(case(&flat, rng.once_in(2), ENOUGH));
    }
}

impl List {
    fn page(&mut self, flat: &FlatPage, widths: bool, space: usize) {
        let (case, answer) = case(flat, widths, space);
        self.add(case, answer);
    }

    /// With widths on and off.
    fn pages(&mut self, table: &PageTable) {
        for widths in [false, true] {
            self.page(&FlatPage::of(table), widths, ENOUGH);
        }
    }
}

fn case(flat: &FlatPage, widths: bool, space: usize) -> (String, String) {
    let [columns, rows, cells, bytes] = flat.sizes;
    let words = [
        format!("g {}", u8::from(widths)),
        format!("{columns} {rows} {cells} {bytes}"),
        runs(&flat.columns),
        packed(&flat.sections),
        runs(&flat.cells),
        packed(&flat.inner),
        space.to_string(),
    ];
    let answer = match answer(flat, widths, space) {
        Ok(page) => format!("accepted {} {}", page.len(), readable(&page)),
        Err(refusal) => refused(refusal),
    };
    (words.join(" "), answer)
}

/// The Rust's page, or document 01's refusal; with widths on and a total of 0
/// the second reading's page.
fn answer(flat: &FlatPage, widths: bool, space: usize) -> Answer<Vec<u8>> {
    let page = pages::answer(&mut Tally::default(), flat, widths).expect("the oracles agree")?;
    if space < page.len() {
        return refuse(12, 0);
    }
    Ok(page)
}

/// Printable ASCII as it is; a backslash and all else as a backslash and two
/// digits.
fn readable(page: &[u8]) -> String {
    let sign = |&b: &u8| match b {
        b'\\' => "\\5c".to_string(),
        b' '..=b'~' => char::from(b).to_string(),
        _ => format!("\\{b:02x}"),
    };
    page.iter().map(sign).collect()
}

/// Columns of all kinds of shares: document 01's 33.33, 66.67, 12.5 and 50,
/// whole ones, 0, and widths of 0 alone.
fn shares(list: &mut List) {
    let widths: [&[usize]; 14] = [
        &[1, 2],
        &[1, 7],
        &[1, 1],
        &[5],
        &[0],
        &[0, 0, 0],
        &[0, 3, 0],
        &[1, 1, 1],
        &[3, 3, 3, 3, 3, 3, 3],
        &[128, 1],
        &[1, 127, 128, 128, 128, 128],
        &[2, 3, 5, 7, 11, 13, 17, 19, 23],
        &[1, 2, 4, 8, 16, 32, 64],
        &[1, 128, 128, 128, 128, 128, 128, 128, 128, 128, 128],
    ];
    for widths in widths {
        list.pages(&row(widths));
    }
    for first in (0..=112).step_by(16) {
        let widths: Vec<usize> = (first..=first + 16).collect();
        list.page(&FlatPage::of(&row(&widths)), true, ENOUGH);
    }
    let mut rng = Rng::new(19);
    for _ in 0..30 {
        let columns = rng.between(2, 9);
        let widths: Vec<usize> = (0..columns).map(|_| rng.below(limits::WIDTH + 1)).collect();
        list.page(&FlatPage::of(&row(&widths)), true, ENOUGH);
    }
}

/// Two rows of a cell across and two cells.
fn three_cells(sections: [usize; 2]) -> PageTable {
    let cell = |row, column, colspan| Place {
        row,
        column,
        colspan,
        rowspan: 1,
        lines: 0,
    };
    PageTable {
        columns: 2,
        rows: 2,
        cells: 3,
        bytes: 6,
        alignments: vec![NONE, CENTER],
        widths: vec![1, 2],
        sections: sections.to_vec(),
        places: vec![cell(0, 0, 2), cell(1, 0, 1), cell(1, 1, 1)],
        lengths: vec![1, 2, 3],
        inner: b"abbccc".to_vec(),
    }
}

/// What the page refuses, in its order, each with a change that brings it about
/// in a table that is otherwise accepted.
const REFUSALS: [(usize, fn(&mut PageTable, &mut usize)); 8] = [
    (13, |table, _| table.inner.push(b'x')),
    (1, |table, _| {
        *table = PageTable {
            cells: 0,
            bytes: table.inner.len() - 6,
            places: vec![],
            lengths: vec![],
            inner: table.inner[6..].to_vec(),
            ..table.clone()
        };
    }),
    (2, |table, _| table.widths[1] = limits::WIDTH + 1),
    (2, |table, _| {
        table.columns = limits::COLUMNS + 1;
        table.alignments.resize(limits::COLUMNS + 1, NONE);
        table.widths.resize(limits::COLUMNS + 1, 1);
    }),
    (8, |table, _| table.sections = vec![FOOT, BODY]),
    (8, |table, _| {
        if let Some(place) = table.places.last_mut() {
            place.colspan = 2;
        }
    }),
    (12, |_, space| *space = 50),
    (12, |_, space| *space = 0),
];

/// Each of them, and each two at once: the one that comes first is answered.
fn orders(list: &mut List) {
    let base = three_cells([BODY; 2]);
    list.pages(&base);
    for (i, (number, first)) in REFUSALS.iter().enumerate() {
        for (_, second) in &REFUSALS[i..] {
            let (mut table, mut space) = (base.clone(), ENOUGH);
            // The earlier one first: where there are no cells, none is changed.
            first(&mut table, &mut space);
            if !std::ptr::fn_addr_eq(*first, *second) {
                second(&mut table, &mut space);
            }
            let flat = FlatPage::of(&table);
            assert_eq!(answer(&flat, true, space).unwrap_err().number, *number);
            list.page(&flat, true, space);
        }
    }
}

/// 8: each grid rule broken, and sections in each order.
fn rules(list: &mut List) {
    let changes: [fn(&mut PageTable); 14] = [
        |t| t.places[0].colspan = 1,
        |t| t.places[0].colspan = 0,
        |t| t.places[0].colspan = 3,
        |t| t.places[0].rowspan = 0,
        |t| t.places[0].rowspan = 2,
        |t| t.places[1].rowspan = 2,
        |t| t.places[1].colspan = 2,
        |t| t.places[1].column = 1,
        |t| t.places[1].row = 0,
        |t| t.places[2].row = 2,
        |t| t.places[2].column = 2,
        |t| t.places[2].column = usize::from(u16::MAX),
        |t| t.places.swap(1, 2),
        |t| t.places.swap(0, 2),
    ];
    for change in changes {
        let mut table = three_cells([BODY; 2]);
        change(&mut table);
        assert_eq!(answer(&FlatPage::of(&table), false, ENOUGH), refuse(8, 0));
        list.page(&FlatPage::of(&table), false, ENOUGH);
    }
    for upper in [HEAD, BODY, FOOT] {
        for lower in [HEAD, BODY, FOOT] {
            list.pages(&three_cells([upper, lower]));
            // A cell of both rows: 8 where their sections differ.
            let mut table = row(&[1, 1]);
            table.rows = 2;
            table.sections = vec![upper, lower];
            table.places[0].rowspan = 2;
            table.places.push(Place {
                row: 1,
                ..table.places[1]
            });
            table.lengths.push(0);
            table.cells = 3;
            list.page(&FlatPage::of(&table), false, ENOUGH);
        }
    }
    // No cell starts in the second row, or in the second column.
    let mut one = row(&[1]);
    one.rows = 2;
    one.sections = vec![BODY; 2];
    one.places[0].rowspan = 2;
    list.page(&FlatPage::of(&one), false, ENOUGH);
    let mut one = row(&[1, 1]);
    one.cells = 1;
    one.lengths.pop();
    one.places.pop();
    one.places[0].colspan = 2;
    list.page(&FlatPage::of(&one), false, ENOUGH);
}

/// 13: sizes that the arrays contradict, and numbers that are no alignment or
/// section; before 1.
fn sizes(list: &mut List) {
    let right = FlatPage::of(&three_cells([HEAD, BODY]));
    for i in 0..right.sizes.len() {
        let size = right.sizes[i];
        for size in [size + 1, size - 1, 0, FAR] {
            let mut flat = right.clone();
            flat.sizes[i] = size;
            list.page(&flat, true, ENOUGH);
        }
    }
    let changes: [fn(&mut FlatPage); 18] = [
        |f| f.columns.push(0),
        |f| f.columns.truncate(3),
        |f| f.columns.truncate(2),
        |f| f.columns.clear(),
        |f| f.columns[0] = CENTER as u16 + 1,
        |f| f.columns[2] = u16::MAX,
        |f| f.sections.push(BODY as u8),
        |f| f.sections.truncate(1),
        |f| f.sections.clear(),
        |f| f.sections[0] = FOOT as u8 + 1,
        |f| f.sections[1] = u8::MAX,
        |f| f.cells.push(0),
        |f| f.cells.truncate(14),
        |f| f.cells.clear(),
        |f| f.cells[4] += 1,
        |f| f.cells[14] = u16::MAX,
        |f| f.inner.truncate(5),
        |f| f.inner.clear(),
    ];
    for change in changes {
        let mut flat = right.clone();
        change(&mut flat);
        assert_eq!(answer(&flat, false, ENOUGH), refuse(13, 0));
        list.page(&flat, false, ENOUGH);
    }
    // 1: no columns, no rows, no cells, and nothing at all.
    for sizes in [[0, 2, 3, 6], [2, 0, 3, 6], [2, 2, 0, 0], [0, 0, 0, 0]] {
        let mut flat = right.clone();
        flat.sizes = sizes;
        flat.columns.truncate(2 * sizes[0]);
        flat.sections.truncate(sizes[1]);
        flat.cells.truncate(5 * sizes[2]);
        flat.inner.truncate(sizes[3]);
        assert_eq!(answer(&flat, true, ENOUGH), refuse(1, 0));
        list.page(&flat, true, ENOUGH);
    }
}

/// 12: output of just the page's length, one short, and empty.
fn outputs(list: &mut List) {
    let mut tables: Vec<PageTable> = (edge::tables().iter())
        .map(|(table, _)| escaped(table))
        .collect();
    tables.extend([row(&[1, 2]), three_cells([HEAD, BODY])]);
    for table in &tables {
        let flat = FlatPage::of(table);
        for widths in [false, true] {
            if let Ok(page) = answer(&flat, widths, ENOUGH) {
                for space in [page.len(), page.len() - 1, 0] {
                    list.page(&flat, widths, space);
                }
            }
        }
    }
}

/// At each limit and one past it; and every byte inside a cell.
fn at_limits() -> Vec<PageTable> {
    let mut tables = vec![];
    for over in 0..2 {
        tables.push(row(&vec![1; limits::COLUMNS + over]));
        tables.push(row(&[limits::WIDTH + over, 1]));
        let mut tall = row(&[1]);
        tall.rows = limits::ROWS + over;
        tall.sections = vec![BODY; tall.rows];
        let place = tall.places[0];
        tall.places = (0..tall.rows).map(|row| Place { row, ..place }).collect();
        tall.cells = tall.rows;
        tall.lengths = vec![0; tall.rows];
        tables.push(tall);
        tables.push(many([32, 41][over], [32, 25][over]));
        let mut heavy = row(&[1, 1]);
        heavy.lengths = vec![limits::BYTES - 1, 1 + over];
        heavy.bytes = limits::BYTES + over;
        heavy.inner = vec![b'x'; heavy.bytes];
        tables.push(heavy);
    }
    let mut any = row(&[1]);
    any.bytes = 256;
    any.lengths = vec![256];
    any.inner = (0..=255).collect();
    tables.push(any);
    tables
}

/// Rows and columns of empty cells.
fn many(rows: usize, columns: usize) -> PageTable {
    let mut table = row(&vec![1; columns]);
    let first = table.places.clone();
    table.rows = rows;
    table.sections = vec![BODY; rows];
    let place = |i: usize| Place {
        row: i / columns,
        ..first[i % columns]
    };
    table.cells = rows * columns;
    table.places = (0..table.cells).map(place).collect();
    table.lengths = vec![0; table.cells];
    table
}

/// Each alignment in each section, in cells of every span of a row of two.
fn attributes(list: &mut List) {
    for section in [HEAD, BODY, FOOT] {
        for alignment in [NONE, LEFT, RIGHT, CENTER] {
            let mut table = three_cells([section; 2]);
            table.alignments[0] = alignment;
            list.page(&FlatPage::of(&table), false, ENOUGH);
            let mut table = row(&[1, 1]);
            table.alignments = vec![alignment, NONE];
            table.rows = 2;
            table.sections = vec![section; 2];
            table.places[0].rowspan = 2;
            table.places.push(Place {
                row: 1,
                ..table.places[1]
            });
            table.cells = 3;
            table.lengths.push(0);
            list.page(&FlatPage::of(&table), false, ENOUGH);
        }
    }
}
