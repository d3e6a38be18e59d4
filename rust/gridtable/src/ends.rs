//! The ends of cells' lines in a document.

use std::fmt;

use crate::arrays::Register;
use crate::{Fragment, Refusal, ffi};

/// Where a line of a cell starts and ends in a document, by its columns.
#[derive(Clone, Copy, PartialEq, Eq, PartialOrd, Ord, Hash, Debug)]
pub struct CellLineEnd {
    /// The line's number, from 1.
    pub line: u32,
    /// The first column, from 1.
    pub start: u32,
    /// The column of the line's end.
    pub eol: u32,
}

impl CellLineEnd {
    /// The end moved onto its fragment: the fragment's line, and its byte added
    /// to start and eol. The end's line counts the fragments from 1. Refused
    /// with 13 and 2.
    ///
    /// ```
    /// use gridtable::{CellLineEnd, FragmentPlaces};
    ///
    /// let places: FragmentPlaces = [(7, 20)].into_iter().collect();
    /// let end = CellLineEnd { line: 1, start: 2, eol: 5 };
    /// assert_eq!(end.remap(&places)?, CellLineEnd { line: 7, start: 22, eol: 25 });
    /// # Ok::<(), gridtable::Refusal>(())
    /// ```
    pub fn remap(self, fragments: &FragmentPlaces) -> Result<CellLineEnd, Refusal> {
        let end = [self.line, self.start, self.eol];
        let reply = ffi::remap_line_end(&fragments.lines, &fragments.bytes, end);
        Refusal::check(reply.number, reply.place)?;
        Ok(CellLineEnd {
            line: reply.line,
            start: reply.start,
            eol: reply.eol,
        })
    }
}

/// Line and byte of each fragment that a text was put together from.
#[derive(Clone, PartialEq, Eq, Hash, Debug, Default)]
pub struct FragmentPlaces {
    lines: Vec<u32>,
    bytes: Vec<u32>,
}

impl FromIterator<(u32, u32)> for FragmentPlaces {
    fn from_iter<I: IntoIterator<Item = (u32, u32)>>(places: I) -> FragmentPlaces {
        let (lines, bytes) = places.into_iter().unzip();
        FragmentPlaces { lines, bytes }
    }
}

impl<'f, 'a: 'f> FromIterator<&'f Fragment<'a>> for FragmentPlaces {
    fn from_iter<I: IntoIterator<Item = &'f Fragment<'a>>>(fragments: I) -> FragmentPlaces {
        fragments.into_iter().map(|f| (f.line, f.byte)).collect()
    }
}

/// A register of line ends.
///
/// ```
/// use gridtable::{CellLineEnd, LineEnds};
///
/// let mut ends = LineEnds::new();
/// ends.add(CellLineEnd { line: 3, start: 2, eol: 9 })?;
/// assert_eq!(ends.find(3, 5)?, Some(9));
/// assert_eq!(ends.find(3, 10)?, None);
/// # Ok::<(), gridtable::Refusal>(())
/// ```
#[derive(Clone)]
pub struct LineEnds(Register);

impl LineEnds {
    /// An empty register.
    pub fn new() -> LineEnds {
        LineEnds(Register::new())
    }

    /// How many ends it holds.
    pub fn len(&self) -> usize {
        self.0.count
    }

    /// Whether it holds none.
    pub fn is_empty(&self) -> bool {
        self.0.count == 0
    }

    /// The ends that it holds, in the order in which they were added.
    pub fn iter(&self) -> impl ExactSizeIterator<Item = CellLineEnd> + '_ {
        let register = &self.0;
        (0..register.count).map(|i| CellLineEnd {
            line: register.lines[i],
            start: register.starts[i],
            eol: register.eols[i],
        })
    }

    /// Adds an end; refused with 13, 2 and 14.
    pub fn add(&mut self, end: CellLineEnd) -> Result<(), Refusal> {
        let reply = ffi::add_line_end(&mut self.0, [end.line, end.start, end.eol]);
        Refusal::check(reply.number, reply.place)?;
        self.0.count = reply.count;
        Ok(())
    }

    /// The eol of the last end on the line, ordered by start, then eol, that
    /// reaches the column; refused with 13 and 2.
    pub fn find(&self, line: u32, column: u32) -> Result<Option<u32>, Refusal> {
        let reply = ffi::find_line_end(&self.0, line, column);
        Refusal::check(reply.number, reply.place)?;
        Ok((reply.found == 1).then_some(reply.eol))
    }

    /// A register with each end moved onto its fragment, as
    /// [`CellLineEnd::remap`] moves it; the first refusal where one is refused,
    /// and 13 where an end comes to line 0.
    pub fn remap(&self, fragments: &FragmentPlaces) -> Result<LineEnds, Refusal> {
        let mut moved = LineEnds::new();
        for end in self.iter() {
            moved.add(end.remap(fragments)?)?;
        }
        Ok(moved)
    }
}

impl Default for LineEnds {
    fn default() -> LineEnds {
        LineEnds::new()
    }
}

/// The ends that it holds.
impl fmt::Debug for LineEnds {
    fn fmt(&self, f: &mut fmt::Formatter<'_>) -> fmt::Result {
        f.debug_list().entries(self.iter()).finish()
    }
}
