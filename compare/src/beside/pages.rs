//! The page of a table, widths on and off.

use crate::against::guarded::{GUARD, Guarded, WIDE_GUARD};
use crate::cuts::lent::{fill, written};
use crate::draws::limits::{change_length, set};
use crate::given;
use crate::library::beside::{self, PageArrays, PageReply};
use crate::make::{self, Rng};
use crate::paper::flat_page::FlatPage;
use crate::paper::page;
use crate::paper::{Answer, refuse};
use crate::tally::Tally;

/// Three pages for each ten of N.
pub fn run(rng: Rng, n: usize) -> Tally {
    let mut run = Run {
        rng,
        lent: Lent::new(),
        tally: Tally::default(),
    };
    for _ in 0..(3 * n).div_ceil(10) {
        run.random();
    }
    run.tally
}

struct Run {
    rng: Rng,
    lent: Lent,
    tally: Tally,
}

/// The page that is expected, or the refusal.
#[derive(Debug)]
pub struct Expected {
    reply: PageReply,
    page: Vec<u8>,
}

pub fn accepted(page: Vec<u8>) -> Expected {
    let reply = PageReply {
        number: 0,
        place: 0,
        bytes: page.len(),
    };
    Expected { reply, page }
}

impl Expected {
    fn of(answer: Answer<Vec<u8>>) -> Expected {
        match answer {
            Ok(page) => accepted(page),
            Err(refusal) => Expected {
                reply: PageReply {
                    number: refusal.number,
                    place: refusal.place,
                    bytes: 0,
                },
                page: vec![],
            },
        }
    }
}

/// The Rust's page where the second reading accepts; none where they disagree.
pub fn answer(tally: &mut Tally, flat: &FlatPage, widths: bool) -> Option<Answer<Vec<u8>>> {
    let Some(table) = flat.table() else {
        return Some(refuse(13, 0));
    };
    let paper = match page::page(&table, widths, usize::MAX) {
        Ok(paper) => paper,
        Err(refusal) => return Some(Err(refusal)),
    };
    // With a total of 0 the Rust prints NaN.
    if widths && table.widths.iter().all(|&width| width == 0) {
        tally.kind("pages: a total of 0, by the second reading alone");
        return Some(Ok(paper));
    }
    let rust = given::page(&table, widths);
    (rust == paper).then_some(Ok(rust))
}

/// Sizes and arrays that contradict each other; sometimes they still agree.
fn contradict(rng: &mut Rng, flat: &mut FlatPage) {
    let far = [
        0,
        1,
        128,
        65_536,
        usize::MAX / 2,
        usize::MAX / 5 + 1,
        usize::MAX,
    ];
    for _ in 0..rng.between(1, 2) {
        let size = &mut flat.sizes[rng.below(4)];
        match rng.below(12) {
            0 => *size = size.wrapping_add(1),
            1 => *size = size.saturating_sub(1),
            2 => *size = rng.pick(&far),
            3 => change_length(rng, &mut flat.columns),
            4 => change_length(rng, &mut flat.sections),
            5 => change_length(rng, &mut flat.cells),
            6 => change_length(rng, &mut flat.inner),
            7 => set(rng, &mut flat.cells, (5, 4), &[0, 1, 129, 65_535]),
            // Twice this is what it was, where the product loses its upper part.
            8 => flat.sizes[0] = flat.sizes[0].wrapping_add(1 << 63),
            // 5 times this is as many entries as there are.
            9 => flat.sizes[2] = flat.cells.len().wrapping_mul(0xCCCC_CCCC_CCCC_CCCD),
            10 => set(rng, &mut flat.columns, (2, 0), &[4, 5, 65_535]),
            _ => set(rng, &mut flat.sections, (1, 0), &[3, 4, 255]),
        }
    }
}

impl Run {
    fn random(&mut self) {
        let mut flat = FlatPage::of(&make::pages::table(&mut self.rng));
        if self.rng.once_in(25) {
            contradict(&mut self.rng, &mut flat);
            self.page("pages: contradictory sizes", &flat);
        } else {
            self.page("pages: random and damaged tables", &flat);
        }
    }

    /// With output space enough and, where the table is accepted, with less.
    fn page(&mut self, kind: &'static str, flat: &FlatPage) {
        let widths = self.rng.once_in(2);
        self.tally.kind(kind);
        let Some(answer) = answer(&mut self.tally, flat, widths) else {
            self.tally.differ("the oracles disagree", flat, &(), &());
            return;
        };
        let given = (flat, widths);
        let expected = Expected::of(answer);
        let kind = match widths {
            true => "calls: page, widths on",
            false => "calls: page, widths off",
        };
        let need = expected.page.len();
        let more: &[usize] = match expected.reply.number {
            0 => &[0, 0, 1, 2, 5, 40],
            _ => &[0, 3, 20, 60, 200],
        };
        let length = need + self.rng.pick(more);
        self.lent
            .call(&mut self.tally, kind, given, length, &expected);
        if need > 0 && self.rng.once_in(2) {
            let short = self.rng.shorter(need);
            let refused = Expected::of(refuse(12, 0));
            let kind = "calls: page, short outputs";
            self.lent
                .call(&mut self.tally, kind, given, short, &refused);
        }
    }
}

/// Buffers between guards.
pub struct Lent {
    columns: Guarded<u16>,
    sections: Guarded<u8>,
    cells: Guarded<u16>,
    inner: Guarded<u8>,
    out: Guarded<u8>,
    /// What the output holds before the call: another value each time.
    filling: u8,
}

impl Lent {
    pub fn new() -> Lent {
        let narrow = || Guarded::new(GUARD);
        Lent {
            columns: Guarded::new(WIDE_GUARD),
            sections: narrow(),
            cells: Guarded::new(WIDE_GUARD),
            inner: narrow(),
            out: narrow(),
            filling: 0,
        }
    }

    /// Calls the library with an output array of this length.
    pub fn call(
        &mut self,
        tally: &mut Tally,
        kind: &'static str,
        given: (&FlatPage, bool),
        length: usize,
        expected: &Expected,
    ) {
        tally.count(kind, "page", expected.reply.number);
        let got = self.run(given, length);
        if got != expected.reply {
            tally.differ("page", &given, &expected.reply, &got);
        }
        if let Some(array) = self.changed(given.0, length, &expected.page) {
            tally.differ(array, &given, expected, &length);
        }
    }

    fn run(&mut self, (flat, widths): (&FlatPage, bool), length: usize) -> PageReply {
        self.columns.put(&flat.columns);
        self.sections.put(&flat.sections);
        self.cells.put(&flat.cells);
        self.inner.put(&flat.inner);
        self.filling = self.filling.wrapping_add(0x3D);
        fill(&mut self.out, length, self.filling);
        let table = PageArrays {
            sizes: flat.sizes,
            columns: self.columns.entries(flat.columns.len()),
            sections: self.sections.entries(flat.sections.len()),
            cells: self.cells.entries(flat.cells.len()),
            inner: self.inner.entries(flat.inner.len()),
        };
        beside::page(widths, table, self.out.entries(length))
    }

    /// The first array that is not as it must be after the call.
    fn changed(&mut self, flat: &FlatPage, length: usize, page: &[u8]) -> Option<&'static str> {
        let kept = [
            self.columns.holds(&flat.columns),
            self.sections.holds(&flat.sections),
            self.cells.holds(&flat.cells),
            self.inner.holds(&flat.inner),
            written(&mut self.out, length, page, self.filling),
        ];
        let names = ["columns", "sections", "cells", "inner bytes", "page"];
        kept.iter().position(|&kept| !kept).map(|i| names[i])
    }
}
