//! A column's share: its hundredths, its f64 and, on pages, its digits.

use super::pages::{Lent, accepted};
use crate::given;
use crate::library::beside;
use crate::make::Rng;
use crate::paper::flat_page::FlatPage;
use crate::paper::layout::{BODY, NONE};
use crate::paper::limits;
use crate::paper::page::{self, PageTable};
use crate::paper::table::Place;
use crate::tally::Tally;

/// What 127 columns of 128 have together.
pub const MOST_TOTAL: usize = limits::COLUMNS * limits::WIDTH;

/// All widths of all totals, and shares at random past them.
pub fn run(mut rng: Rng, n: usize) -> Tally {
    let mut tally = Tally::default();
    let mut lent = Lent::new();
    for total in 1..=MOST_TOTAL {
        let on_pages = pages(&mut tally, &mut lent, total);
        for (width, rust) in on_pages.into_iter().enumerate() {
            let rust = rust.or_else(|| rust_share(width, total));
            let kind = "shares: all widths of all totals";
            share(&mut tally, kind, (width, total), rust);
        }
    }
    for _ in 0..n {
        let (width, total) = random(&mut rng);
        let rust = rust_share(width, total);
        share(&mut tally, "shares: at random", (width, total), rust);
    }
    tally
}

/// A width and a total; some whose hundredths lie at a half, or near one.
pub fn random(rng: &mut Rng) -> (usize, usize) {
    let width = match rng.below(3) {
        0 => rng.below(limits::WIDTH + 1),
        _ => rng.below(65_536),
    };
    let most = u32::MAX as usize;
    let total = match rng.below(4) {
        0 => rng.pick(&[0, 1, 3, 65_535, 65_536, most]),
        1 => rng.below(MOST_TOTAL + 1),
        2 => (20_000 * width / (2 * rng.below(10_000) + 1)).min(most),
        _ => rng.below(most + 1),
    };
    (width, total)
}

/// A row of empty cells in columns of these widths.
pub fn row(widths: &[usize]) -> PageTable {
    let columns = widths.len();
    let place = |column: usize| Place {
        row: 0,
        column,
        colspan: 1,
        rowspan: 1,
        lines: 0,
    };
    PageTable {
        columns,
        rows: 1,
        cells: columns,
        bytes: 0,
        alignments: vec![NONE; columns],
        widths: widths.to_vec(),
        sections: vec![BODY],
        places: (0..columns).map(place).collect(),
        lengths: vec![0; columns],
        inner: vec![],
    }
}

/// The shares on a page of the Rust. The digits that it prints for an f64 are
/// those that give back every bit of it.
fn shares_on(page: &[u8]) -> impl Iterator<Item = f64> {
    let page = std::str::from_utf8(page).unwrap();
    let digits = page.split("width:").skip(1);
    digits.map(|rest| rest.split_once('%').unwrap().0.parse().unwrap())
}

/// The Rust's share, where there can be columns of this total.
pub fn rust_share(width: usize, total: usize) -> Option<f64> {
    let rest = total.checked_sub(width).filter(|_| total > 0)?;
    shares_on(&given::page(&row(&[width, rest]), true)).next()
}

/// Hundredths by the second reading, every bit of the f64 by the Rust too.
fn share(tally: &mut Tally, kind: &'static str, (width, total): (usize, usize), rust: Option<f64>) {
    tally.count(kind, "share", 0);
    let hundredths = page::hundredths(width, total);
    let percent = page::share(hundredths);
    let input = (width, total);
    match rust {
        None => tally.kind("shares: no columns have them, by the second reading alone"),
        Some(rust) if rust.to_bits() == percent.to_bits() => {}
        Some(rust) => tally.differ("the oracles disagree", &input, &rust, &percent),
    }
    let (width, total) = (u16::try_from(width).unwrap(), u32::try_from(total).unwrap());
    let got = beside::share(width, total);
    if got.hundredths as usize != hundredths || got.percent.to_bits() != percent.to_bits() {
        tally.differ("share", &input, &(hundredths, percent), &got);
    }
}

/// Pages with each width that a table of this total can have: the first
/// columns are successive widths, the others what is left of the total. Gives
/// the Rust's shares of these widths.
fn pages(tally: &mut Tally, lent: &mut Lent, total: usize) -> [Option<f64>; limits::WIDTH + 1] {
    let mut shares = [None; limits::WIDTH + 1];
    let fits = |left: usize, columns: usize| left <= columns * limits::WIDTH;
    let mut next = total.saturating_sub((limits::COLUMNS - 1) * limits::WIDTH);
    while next <= total.min(limits::WIDTH) {
        let mut widths = vec![];
        let mut left = total;
        while next <= left.min(limits::WIDTH)
            && widths.len() < limits::COLUMNS
            && fits(left - next, limits::COLUMNS - widths.len() - 1)
        {
            tally.kind("shares: digits on a page");
            widths.push(next);
            left -= next;
            next += 1;
        }
        let successive = widths.len();
        while left > 0 {
            widths.push(left.min(limits::WIDTH));
            left -= left.min(limits::WIDTH);
        }
        let table = row(&widths);
        let page = given::page(&table, true);
        for (&width, rust) in widths[..successive].iter().zip(shares_on(&page)) {
            shares[width] = Some(rust);
        }
        let flat = FlatPage::of(&table);
        let length = page.len();
        let kind = "calls: page, digits of shares";
        lent.call(tally, kind, (&flat, true), length, &accepted(page));
    }
    shares
}
