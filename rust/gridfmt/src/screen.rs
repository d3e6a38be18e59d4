//! Screen columns, for places in messages and for doubts. The proved calls have their own.

/// The set of characters: first, last, and the columns that each of them takes.
const SET: [(char, char, usize); 9] = [
    (' ', '~', 1),
    ('\u{A1}', '\u{AC}', 1),
    ('\u{AE}', '\u{17F}', 1),
    ('\u{300}', '\u{36F}', 0),
    ('\u{3041}', '\u{3096}', 2),
    ('\u{30A1}', '\u{30FA}', 2),
    ('\u{4E00}', '\u{9FFF}', 2),
    ('\u{AC00}', '\u{D7A3}', 2),
    ('\u{FF01}', '\u{FF60}', 2),
];

/// The columns of a character of the set that starts at a column.
fn known_columns(c: char, column: usize) -> Option<usize> {
    if c == '\t' {
        return Some(4 - column % 4);
    }
    let range = SET
        .iter()
        .find(|&&(first, last, _)| first <= c && c <= last);
    range.map(|&(_, _, columns)| columns)
}

/// The columns of any character; one outside the set counts as one.
fn columns_of(c: char, column: usize) -> usize {
    known_columns(c, column).unwrap_or(1)
}

/// Whether a sheet may hold the character.
pub fn in_set(c: char) -> bool {
    known_columns(c, 0).is_some()
}

/// A line's slots, one for each screen column, each with its character, where the line starts
/// at column `start`. A byte that is no UTF-8 is U+FFFD.
pub fn slots(text: &[u8], start: usize) -> Vec<char> {
    let mut slots = vec![];
    for c in String::from_utf8_lossy(text).chars() {
        let columns = columns_of(c, start + slots.len());
        slots.extend(std::iter::repeat_n(c, columns));
    }
    slots
}

/// How many columns a line takes that starts at column `start`.
pub fn width(text: &[u8], start: usize) -> usize {
    slots(text, start).len()
}

/// A line as it is printed: tabs as blanks, so that a caret below stands right, and for a
/// character that would move the cursor U+FFFD.
pub fn printed(text: &[u8]) -> String {
    let mut line = String::new();
    let mut column = 0;
    for c in String::from_utf8_lossy(text).chars() {
        let columns = columns_of(c, column);
        match c {
            '\t' => line.extend(std::iter::repeat_n(' ', columns)),
            _ if c.is_control()
                || matches!(c, '\u{2028}'..='\u{202E}' | '\u{2066}'..='\u{2069}') =>
            {
                line.push('\u{FFFD}');
            }
            _ => line.push(c),
        }
        column += columns;
    }
    line
}

#[cfg(test)]
mod tests {
    use super::*;
    use paper::set;

    #[test]
    fn the_set_is_that_of_the_second_reading() {
        for c in '\0'..=char::MAX {
            let known = c == '\t' || set::fixed_columns(c.into()).is_some();
            assert_eq!(in_set(c), known, "{c:?}");
            for column in 0..4 {
                let columns = if known { set::columns_at(c, column) } else { 1 };
                assert_eq!(columns_of(c, column), columns, "{c:?}");
            }
        }
    }

    #[test]
    fn a_line_has_a_slot_for_each_column() {
        assert_eq!(slots("aあ".as_bytes(), 0), ['a', 'あ', 'あ']);
        assert_eq!(slots(b"a\tb", 2), ['a', '\t', 'b']);
        assert_eq!(slots("e\u{301}".as_bytes(), 0), ['e']);
        assert_eq!(slots(b"\xFF|", 0), ['\u{FFFD}', '|']);
        assert_eq!(width("| あ |".as_bytes(), 0), 6);
    }

    #[test]
    fn nothing_printed_moves_the_cursor() {
        assert_eq!(
            printed(b"a\tb\x1b[2J\r\xFF"),
            "a   b\u{FFFD}[2J\u{FFFD}\u{FFFD}"
        );
        assert_eq!(printed("\u{202E}x".as_bytes()), "\u{FFFD}x");
    }
}
