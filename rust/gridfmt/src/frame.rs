//! The frame around a sheet: taken off before reading, put back byte for byte.
//!
//! A frame is a byte order mark, line ends of LF or of CR LF, a missing last line end, blank
//! lines before and after, and one indent of blanks. What mixes them is refused in words.

use gridtable::{Drawing, Line};

use crate::messages::Message;

const BYTE_ORDER_MARK: &[u8] = "\u{FEFF}".as_bytes();

/// What stands around a sheet.
#[derive(Clone, PartialEq, Eq, Debug)]
pub struct Frame {
    marked: bool,
    carriage_returns: bool,
    indent: usize,
    /// The bytes before and after the lines of the sheet.
    before: Vec<u8>,
    after: Vec<u8>,
    /// Whether the sheet's last line has its end.
    ended: bool,
}

/// A sheet and its frame.
pub struct Framed<'a> {
    pub frame: Frame,
    /// How many lines stand before the sheet.
    pub above: usize,
    /// The sheet's lines with their indent, without their ends.
    lines: Vec<&'a [u8]>,
}

impl Frame {
    /// The column at which the sheet starts.
    pub fn origin(&self) -> usize {
        self.indent
    }

    /// A drawing with the frame around it.
    pub fn around(&self, drawing: &Drawing) -> Vec<u8> {
        let lines = drawing.lines();
        let mut bytes = vec![];
        if self.marked {
            bytes.extend(BYTE_ORDER_MARK);
        }
        bytes.extend(&self.before);
        for (r, line) in lines.iter().enumerate() {
            bytes.extend(std::iter::repeat_n(b' ', self.indent));
            bytes.extend(line.text);
            if self.ended || r + 1 < lines.len() {
                bytes.extend(self.line_end());
            }
        }
        bytes.extend(&self.after);
        bytes
    }

    fn line_end(&self) -> &'static [u8] {
        if self.carriage_returns {
            b"\r\n"
        } else {
            b"\n"
        }
    }
}

impl<'a> Framed<'a> {
    /// The sheet's lines as reading takes them.
    pub fn sheet(&self) -> Vec<Line<'a>> {
        // Past the limit of 255 reading refuses the origin, whatever it is.
        let column = self.frame.indent.try_into().unwrap_or(u16::MAX);
        let text = |line: &&'a [u8]| line.get(self.frame.indent..).unwrap_or(b"");
        let lines = self.lines.iter();
        lines
            .map(|line| Line {
                text: text(line),
                column,
            })
            .collect()
    }

    /// A line of the sheet as the file has it.
    pub fn line(&self, r: usize) -> &'a [u8] {
        self.lines.get(r).copied().unwrap_or(b"")
    }
}

/// Takes the frame off.
pub fn take_off(bytes: &[u8]) -> Result<Framed<'_>, Message> {
    if bytes.starts_with(b"\xFF\xFE") || bytes.starts_with(b"\xFE\xFF") {
        let message = Message::error(0, 0, "this file is UTF-16");
        return Err(message.help("save it as UTF-8"));
    }
    let unmarked = bytes.strip_prefix(BYTE_ORDER_MARK);
    let text = unmarked.unwrap_or(bytes);
    let raw: Vec<&[u8]> = text.split_inclusive(|&b| b == b'\n').collect();
    let carriage_returns = raw.first().is_some_and(|line| line.ends_with(b"\r\n"));
    check_line_ends(&raw, carriage_returns)?;

    let lines: Vec<&[u8]> = raw.iter().map(|&line| without_end(line)).collect();
    let above = lines.iter().take_while(|line| is_blank(line)).count();
    let below = lines[above..]
        .iter()
        .rev()
        .take_while(|line| is_blank(line));
    let (from, to) = (above, lines.len() - below.count());
    let sheet = &lines[from..to];
    let indent = sheet.first().map_or(0, |line| blanks(line));
    check_indent(sheet, above, indent)?;
    Ok(Framed {
        frame: Frame {
            marked: unmarked.is_some(),
            carriage_returns,
            indent,
            before: raw[..from].concat(),
            after: raw[to..].concat(),
            ended: raw[from..to]
                .last()
                .is_none_or(|line| line.ends_with(b"\n")),
        },
        above,
        lines: sheet.to_vec(),
    })
}

fn without_end(line: &[u8]) -> &[u8] {
    let Some(line) = line.strip_suffix(b"\n") else {
        return line;
    };
    line.strip_suffix(b"\r").unwrap_or(line)
}

fn is_blank(line: &[u8]) -> bool {
    line.iter().all(|b| matches!(b, b' ' | b'\t'))
}

fn blanks(line: &[u8]) -> usize {
    line.iter().take_while(|&&b| b == b' ').count()
}

/// Line ends are all LF or all CR LF.
fn check_line_ends(raw: &[&[u8]], carriage_returns: bool) -> Result<(), Message> {
    let other = |line: &&[u8]| line.ends_with(b"\n") && line.ends_with(b"\r\n") != carriage_returns;
    let Some(at) = raw.iter().position(other) else {
        return Ok(());
    };
    let line = without_end(raw[at]);
    let (this, before) = if carriage_returns {
        ("LF", "CR LF")
    } else {
        ("CR LF", "LF")
    };
    let words = format!("this line ends in {this}, the lines before it in {before}");
    let message = Message::error(at, crate::screen::width(line, 0), words);
    Err(message.source(line).help("give all lines the same end"))
}

/// All lines that are not blank have the first one's indent, of blanks alone. A line with more
/// of them that does not start as a sheet's line does has lost its bar; reading refuses it.
fn check_indent(sheet: &[&[u8]], above: usize, indent: usize) -> Result<(), Message> {
    for (r, line) in sheet.iter().enumerate().filter(|(_, line)| !is_blank(line)) {
        let own = blanks(line);
        let starts = matches!(line.get(own), Some(b'|' | b'+'));
        let words = if line.get(own) == Some(&b'\t') {
            "a tab in the indent of this line; an indent is of blanks".to_owned()
        } else if own < indent || own > indent && starts {
            format!(
                "this line is indented by {}, the first line by {indent}",
                counted(own)
            )
        } else {
            continue;
        };
        let message = Message::error(above + r, own, words).source(line);
        return Err(message.help("a file is one sheet; give all its lines the same indent"));
    }
    Ok(())
}

fn counted(blanks: usize) -> String {
    match blanks {
        1 => "1 blank".to_owned(),
        _ => format!("{blanks} blanks"),
    }
}

#[cfg(test)]
mod tests {
    use super::*;
    use gridtable::redraw_sheet;

    const SHEET: &str = "+---+\n| a |\n+---+\n";

    /// The bytes, redrawn in their frame.
    fn redrawn(bytes: &[u8]) -> Vec<u8> {
        let framed = take_off(bytes).map_err(|m| m.render("sheet")).unwrap();
        let origin = framed.frame.origin() as u16;
        let drawing = redraw_sheet(&framed.sheet(), origin).unwrap();
        framed.frame.around(&drawing)
    }

    fn indented(by: usize) -> String {
        let lines = SHEET
            .lines()
            .map(|line| format!("{}{line}\n", " ".repeat(by)));
        lines.collect()
    }

    #[test]
    fn each_frame_comes_back_byte_for_byte() {
        let untidy = SHEET.replace("| a |", "|a  |  ");
        for (with, plain) in [(SHEET, SHEET), (&untidy[..], SHEET)] {
            for mark in ["", "\u{FEFF}"] {
                for before in ["", "\n", " \n\t\n\n"] {
                    for after in ["", "\n", "\n  \n\t", "  "] {
                        let framed = |s: &str| format!("{mark}{before}{s}{after}").into_bytes();
                        assert_eq!(redrawn(&framed(with)), framed(plain));
                        let crlf = |s: &str| {
                            framed(s)
                                .split(|&b| b == b'\n')
                                .collect::<Vec<_>>()
                                .join(&b"\r\n"[..])
                        };
                        assert_eq!(redrawn(&crlf(with)), crlf(plain));
                    }
                    let open = |s: &str| format!("{mark}{before}{}", s.trim_end()).into_bytes();
                    assert_eq!(redrawn(&open(with)), open(plain));
                }
            }
        }
        for by in [1, 4, 255] {
            assert_eq!(redrawn(indented(by).as_bytes()), indented(by).as_bytes());
        }
    }

    /// A tab goes to a multiple of 4 columns of the file: here it takes one.
    #[test]
    fn the_indent_is_the_origin() {
        let sheet = b"  +-+\n  |\t|\n  +-+\n";
        let framed = take_off(sheet).unwrap_or_else(|_| panic!());
        assert_eq!((framed.frame.origin(), framed.sheet()[1].column), (2, 2));
        assert_eq!(redrawn(sheet), b"  +-+\n  | |\n  +-+\n");
    }

    #[test]
    fn what_mixes_is_refused_in_words() {
        for (bytes, said) in [
            (
                "+-+\r\n+-+\n",
                "f:2:4: error: this line ends in LF, the lines before it in CR LF",
            ),
            (
                "\n+-+\r\n+-+\n",
                "f:2:4: error: this line ends in CR LF, the lines before it in LF",
            ),
            (
                "  +-+\n +-+\n",
                "f:2:2: error: this line is indented by 1 blank, the first line by 2",
            ),
            (
                "\n+-+\n  +-+\n",
                "f:3:3: error: this line is indented by 2 blanks, the first line by 0",
            ),
            (
                " \t+-+\n",
                "f:1:2: error: a tab in the indent of this line; an indent is of blanks",
            ),
            (
                "  +-+\n  \t+-+\n",
                "f:2:3: error: a tab in the indent of this line; an indent is of blanks",
            ),
        ] {
            let message = take_off(bytes.as_bytes()).map(|_| ()).unwrap_err();
            assert_eq!(message.render("f").lines().next(), Some(said));
        }
        let wide = take_off(b"\xFF\xFE+\0").map(|_| ()).unwrap_err();
        assert!(
            wide.render("f")
                .starts_with("f:1:1: error: this file is UTF-16")
        );
    }

    #[test]
    fn a_file_without_a_sheet_has_no_lines() {
        for bytes in ["", "\n", " \n\t", "\u{FEFF}"] {
            let framed = take_off(bytes.as_bytes()).unwrap_or_else(|_| panic!());
            assert!(framed.sheet().is_empty(), "{bytes:?}");
        }
    }

    #[test]
    fn a_blank_line_inside_is_part_of_the_sheet() {
        let framed = take_off(b"  +-+\n\n  +-+\n").unwrap_or_else(|_| panic!());
        let texts: Vec<&[u8]> = framed.sheet().iter().map(|line| line.text).collect();
        assert_eq!(texts, [&b"+-+"[..], b"", b"+-+"]);
    }
}
