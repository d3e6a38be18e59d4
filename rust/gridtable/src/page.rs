//! A table's page, and the shares of columns.

use std::fmt;

use crate::TableCell;
use crate::ffi;

/// A table's page as HTML. Printed, it is its text; bytes that are not UTF-8,
/// which only a caller's own inner bytes can bring in, are then replaced.
#[derive(Clone, PartialEq, Eq, Hash, Debug)]
pub struct Page(pub(crate) Vec<u8>);

impl Page {
    /// Its bytes.
    pub fn as_bytes(&self) -> &[u8] {
        &self.0
    }

    /// Its bytes, handed over.
    pub fn into_bytes(self) -> Vec<u8> {
        self.0
    }
}

impl fmt::Display for Page {
    fn fmt(&self, f: &mut fmt::Formatter<'_>) -> fmt::Result {
        f.write_str(&String::from_utf8_lossy(&self.0))
    }
}

/// The inner bytes of a cell: its lines escaped, and parted by line breaks.
pub(crate) fn inner_of(cell: &TableCell) -> Vec<u8> {
    let mut inner = vec![];
    for (i, line) in cell.lines.iter().enumerate() {
        if i > 0 {
            inner.extend(b"<br />\n");
        }
        for &byte in line {
            match byte {
                b'&' => inner.extend(b"&amp;"),
                b'<' => inner.extend(b"&lt;"),
                b'>' => inner.extend(b"&gt;"),
                _ => inner.push(byte),
            }
        }
    }
    inner
}

/// A column's share of a page's width.
#[derive(Clone, Copy, PartialEq, Debug)]
pub struct Share {
    /// In hundredths of a percent, half up.
    pub hundredths: u32,
    /// In percent: the hundredths divided by 100.
    pub percent: f64,
}

/// The share of a width of the total of all widths; 0 where the total is 0.
///
/// ```
/// assert_eq!(gridtable::share(1, 3).hundredths, 3_333);
/// assert_eq!(gridtable::share(1, 8).percent, 12.5);
/// ```
pub fn share(width: u16, total: u32) -> Share {
    let reply = ffi::grid_share(width, total);
    Share {
        hundredths: reply.hundredths,
        percent: reply.percent,
    }
}
