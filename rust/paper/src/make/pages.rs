//! Tables for the page, their inner bytes no text.

use super::{Rng, tables};
use crate::page::PageTable;

pub fn table(rng: &mut Rng) -> PageTable {
    let (table, _) = tables::table(rng);
    let mut page = PageTable {
        columns: table.columns,
        rows: table.rows,
        cells: table.cells,
        bytes: 0,
        alignments: table.alignments,
        widths: table.widths,
        sections: table.sections,
        lengths: vec![],
        inner: vec![],
        places: table.places,
    };
    for _ in 0..page.places.len() {
        let length = if rng.once_in(200) {
            rng.between(600, 33_000)
        } else {
            rng.between(0, 4)
        };
        let inner: Vec<u8> = (0..length).map(|_| rng.pick(b"a\n<>\x80\xFF")).collect();
        page.bytes += length;
        page.lengths.push(length);
        page.inner.extend(inner);
    }
    page
}
