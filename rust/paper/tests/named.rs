//! The second reading gives the answers that document 01 and its decisions name.

use paper::layout::{self, Space};
use paper::make::edge;
use paper::{Refusal, ends, listing, page, redraw};

fn named(refusal: Refusal) -> (usize, usize) {
    (refusal.number, refusal.place)
}

#[test]
fn sheets_have_their_listings_and_refusals() {
    for (sheet, expected) in edge::sheets() {
        let listed = layout::read(&sheet, Space::ENOUGH).map(|layout| listing::listed(&layout));
        let expected = expected.map(|lines| lines.replace(';', "\n") + "\n");
        assert_eq!(listed.map_err(named), expected, "{sheet:?}");
    }
}

#[test]
fn tables_have_their_drawings_and_refusals() {
    for (table, expected) in edge::tables() {
        let drawn = redraw::redraw(&table, 0, redraw::Space::ENOUGH);
        let expected = expected.map(edge::sheet);
        assert_eq!(drawn.map_err(named), expected, "{table:?}");
    }
}

#[test]
fn shares_and_line_ends_are_those_named() {
    assert_eq!(
        [page::hundredths(1, 3), page::hundredths(2, 3)],
        [3_333, 6_667]
    );
    assert_eq!(ends::find(&[(1, 1, 10), (1, 2, 5)], 1, 7), Ok(Some(10)));
    let moved = ends::remap((1, 1, 1), &[(1, 65_535)]);
    assert_eq!(moved.map_err(named), Err((2, 0)));
}
