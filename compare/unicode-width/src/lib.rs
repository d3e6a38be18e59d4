//! Stands in for the unicode-width crate: the columns that document 01 gives
//! to each character of its set, and none for a character outside the set.

pub trait UnicodeWidthChar {
    fn width(self) -> Option<usize>;
}

impl UnicodeWidthChar for char {
    fn width(self) -> Option<usize> {
        match u32::from(self) {
            0x20..=0x7E | 0xA1..=0xAC | 0xAE..=0x17F => Some(1),
            0x300..=0x36F => Some(0),
            0x3041..=0x3096 | 0x30A1..=0x30FA => Some(2),
            0x4E00..=0x9FFF | 0xAC00..=0xD7A3 | 0xFF01..=0xFF60 => Some(2),
            _ => None,
        }
    }
}
