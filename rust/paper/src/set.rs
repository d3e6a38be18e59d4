//! The character set, trimming and rule lines.

/// First and last code point, and the columns each of the range takes.
pub const RANGES: [(u32, u32, usize); 9] = [
    (0x20, 0x7E, 1),
    (0xA1, 0xAC, 1),
    (0xAE, 0x17F, 1),
    (0x300, 0x36F, 0),
    (0x3041, 0x3096, 2),
    (0x30A1, 0x30FA, 2),
    (0x4E00, 0x9FFF, 2),
    (0xAC00, 0xD7A3, 2),
    (0xFF01, 0xFF60, 2),
];

/// The columns of a code point, or none for one outside the set. The tab is
/// in the set, but its columns depend on where it stands: none here.
pub fn fixed_columns(value: u32) -> Option<usize> {
    for (first, last, columns) in RANGES {
        if first <= value && value <= last {
            return Some(columns);
        }
    }
    None
}

pub fn tab_columns(column: usize) -> usize {
    4 - column % 4
}

/// The columns of a character of the set at a column.
pub fn columns_at(c: char, column: usize) -> usize {
    if c == '\t' {
        tab_columns(column)
    } else {
        fixed_columns(u32::from(c)).unwrap()
    }
}

/// The line as characters, or none where it is not UTF-8 or has a character
/// outside the set.
pub fn characters(line: &[u8]) -> Option<&str> {
    let text = std::str::from_utf8(line).ok()?;
    let known = |c: char| c == '\t' || fixed_columns(u32::from(c)).is_some();
    text.chars().all(known).then_some(text)
}

pub fn trimmed(line: &[u8]) -> &[u8] {
    let mut end = line.len();
    while end > 0 && (line[end - 1] == b' ' || line[end - 1] == b'\t') {
        end -= 1;
    }
    &line[..end]
}

/// `+`, then any number of segments each closed by `+`.
pub fn is_rule(line: &[u8], fill: u8) -> bool {
    if line.first() != Some(&b'+') {
        return false;
    }
    let mut segments: Vec<&[u8]> = line[1..].split(|&b| b == b'+').collect();
    let unclosed = segments.pop().unwrap();
    unclosed.is_empty() && segments.iter().all(|s| is_segment(s, fill))
}

fn is_segment(segment: &[u8], fill: u8) -> bool {
    let rest = segment.strip_prefix(b":").unwrap_or(segment);
    let rest = rest.strip_suffix(b":").unwrap_or(rest);
    !rest.is_empty() && rest.iter().all(|&b| b == fill)
}
