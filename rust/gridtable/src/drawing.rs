//! A drawing as redraw gives it.

use std::fmt;

use crate::Line;
use crate::arrays::DrawnArrays;

/// A table's drawing. Printed, it is its text, each line ended by a line feed.
///
/// ```
/// use gridtable::{Line, redraw_sheet};
///
/// let drawing = redraw_sheet(&["+----+", "|a   |", "+----+"].map(Line::from), 0)?;
/// assert_eq!(drawing.to_string(), "+----+\n| a  |\n+----+\n");
/// assert_eq!(redraw_sheet(&drawing.lines(), 0)?, drawing);
/// # Ok::<(), gridtable::SheetRefusal>(())
/// ```
#[derive(Clone, PartialEq, Eq, Hash, Debug)]
pub struct Drawing {
    lengths: Vec<u16>,
    columns: Vec<u16>,
    text: Vec<u8>,
}

impl Drawing {
    pub(crate) fn copied(from: &DrawnArrays, lines: usize, bytes: usize) -> Drawing {
        Drawing {
            lengths: from.lengths[..lines].to_vec(),
            columns: from.columns[..lines].to_vec(),
            text: from.text[..bytes].to_vec(),
        }
    }

    /// Its lines, to be read back. Their column is the origin.
    pub fn lines(&self) -> Vec<Line<'_>> {
        let mut rest = &self.text[..];
        let places = self.lengths.iter().zip(&self.columns);
        places
            .map(|(&length, &column)| {
                let (text, after) = rest.split_at(length.into());
                rest = after;
                Line { text, column }
            })
            .collect()
    }
}

impl fmt::Display for Drawing {
    fn fmt(&self, f: &mut fmt::Formatter<'_>) -> fmt::Result {
        for line in self.lines() {
            // A drawing is UTF-8, so nothing is lost.
            writeln!(f, "{}", String::from_utf8_lossy(line.text))?;
        }
        Ok(())
    }
}
