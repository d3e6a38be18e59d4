//! Lines as they are handed in.

/// A line of a drawing, without its line end. Its text is bytes, since a line
/// that is not UTF-8 has an answer too (3).
///
/// A line longer than 65,535 bytes fits no array of the archive. It passes a
/// limit, and the crate itself answers 2; the archive does so from 513 on.
#[derive(Clone, Copy, PartialEq, Eq, Hash, Debug)]
pub struct Line<'a> {
    /// Its text.
    pub text: &'a [u8],
    /// The column at which the text starts, 0 to 255; tabs depend on it.
    pub column: u16,
}

impl<'a> Line<'a> {
    /// A line that starts at a column.
    ///
    /// ```
    /// use gridtable::Line;
    ///
    /// assert_eq!(Line::at("+-+", 0), Line::from("+-+"));
    /// assert_eq!(Line::at(b"+-+", 4).column, 4);
    /// ```
    pub fn at<T: AsRef<[u8]> + ?Sized>(text: &'a T, column: u16) -> Line<'a> {
        Line {
            text: text.as_ref(),
            column,
        }
    }
}

/// A line at column 0.
impl<'a> From<&'a str> for Line<'a> {
    fn from(text: &'a str) -> Line<'a> {
        Line::at(text, 0)
    }
}

/// A line at column 0.
impl<'a> From<&'a [u8]> for Line<'a> {
    fn from(text: &'a [u8]) -> Line<'a> {
        Line::at(text, 0)
    }
}

/// A line of a drawing with its place in a document.
#[derive(Clone, Copy, PartialEq, Eq, Hash, Debug)]
pub struct SourceLine<'a> {
    /// The drawing's part of the line.
    pub line: Line<'a>,
    /// The line's number in the document, to 65,535.
    pub number: u32,
    /// The byte of the document's line at which the drawing's part starts, to
    /// 65,535.
    pub table_byte: u32,
}
