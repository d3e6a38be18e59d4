//! A cell's cut lines, as views of the caller's text.

use std::ops::Range;

use crate::arrays::CellArrays;
use crate::{Line, Refusal, SourceLine, ffi};

/// A line cut out of a cell: a view of the caller's text, and where it stands.
#[derive(Clone, Copy, PartialEq, Eq, Hash, Debug)]
pub struct Fragment<'a> {
    /// The text between the cell's borders, without the blanks at its end and
    /// one blank at its start.
    pub text: &'a [u8],
    /// The number of its line.
    pub line: u32,
    /// The byte at which it starts.
    pub byte: u32,
    /// The screen column at which it starts.
    pub column: u16,
}

/// The cut lines as views of the lines that were read.
pub(crate) fn fragments<'a>(
    lines: &[Line<'a>],
    from: &CellArrays,
    count: usize,
) -> Vec<Fragment<'a>> {
    let entries = from.lines[..4 * count].chunks_exact(4);
    entries
        .map(|entry| {
            let (start, end) = (usize::from(entry[1]), usize::from(entry[2]));
            Fragment {
                text: &lines[usize::from(entry[0])].text[start..end],
                line: entry[0].into(),
                byte: entry[1].into(),
                column: entry[3],
            }
        })
        .collect()
}

/// Cuts one line: the part `range` of it, in a cell whose left border stands at
/// the screen column `left`. Refused with 13, where the range runs backwards,
/// past the line or into a character; and with 2.
///
/// ```
/// use gridtable::{Line, SourceLine, cell_fragment};
///
/// let line = SourceLine { line: Line::from("| a |"), number: 7, table_byte: 2 };
/// let fragment = cell_fragment(line, 1..4, 0)?;
/// assert_eq!(fragment.text, b"a");
/// assert_eq!((fragment.line, fragment.byte, fragment.column), (7, 4, 2));
/// # Ok::<(), gridtable::Refusal>(())
/// ```
pub fn cell_fragment(
    line: SourceLine<'_>,
    range: Range<usize>,
    left: u16,
) -> Result<Fragment<'_>, Refusal> {
    let text = line.line.text;
    let reply = ffi::cell_fragment(ffi::Cut {
        text,
        column: line.line.column.into(),
        line: line.number as usize,
        table_byte: line.table_byte as usize,
        start: range.start,
        end: range.end,
        left: left.into(),
    });
    Refusal::check(reply.number, reply.place)?;
    // Within the limits of 2, so the numbers fit.
    Ok(Fragment {
        text: &text[reply.start..reply.end],
        line: reply.line as u32,
        byte: reply.byte as u32,
        column: reply.column as u16,
    })
}
