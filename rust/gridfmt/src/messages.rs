//! Messages a dealer can act on: place, words, the line itself with a caret, and what to do.

use std::fmt::Write as _;

use gridtable::{Layout, Line, Refusal, RefusalKind, Step, Table, Workspace, is_rule, trim_end};

use crate::corner::{self, Why};
use crate::frame::Framed;
use crate::screen;

/// The most columns of a line that are printed.
const SHOWN: usize = 160;

#[derive(Clone, Copy, PartialEq, Eq, Debug)]
enum Label {
    /// An error, with the number of a refusal where it is one.
    Error(Option<usize>),
    Doubt,
}

/// A message about a place in a file. Line and column are counted from 0, and printed from 1.
#[derive(Clone, PartialEq, Eq, Debug)]
pub struct Message {
    line: usize,
    column: usize,
    label: Label,
    words: String,
    source: Vec<u8>,
    help: String,
}

impl Message {
    fn new(label: Label, line: usize, column: usize, words: impl Into<String>) -> Message {
        Message {
            line,
            column,
            label,
            words: words.into(),
            source: vec![],
            help: String::new(),
        }
    }

    /// An error that is no refusal of a proved call.
    pub fn error(line: usize, column: usize, words: impl Into<String>) -> Message {
        Message::new(Label::Error(None), line, column, words)
    }

    /// A doubt at a slot of the sheet.
    pub fn doubt(framed: &Framed<'_>, r: usize, x: usize, words: impl Into<String>) -> Message {
        let (line, column) = (framed.above + r, framed.frame.origin() + x);
        Message::new(Label::Doubt, line, column, words).source(framed.line(r))
    }

    /// A refusal at a slot of the sheet.
    fn refusal(
        framed: &Framed<'_>,
        number: usize,
        (r, x): (usize, usize),
        words: impl Into<String>,
    ) -> Message {
        let (line, column) = (framed.above + r, framed.frame.origin() + x);
        let label = Label::Error(Some(number));
        Message::new(label, line, column, words).source(framed.line(r))
    }

    /// The file's line that is printed.
    pub fn source(mut self, line: &[u8]) -> Message {
        self.source = line.to_vec();
        self
    }

    /// What to do.
    pub fn help(mut self, help: impl Into<String>) -> Message {
        self.help = help.into();
        self
    }

    /// The message for a file of this name, each line ended.
    pub fn render(&self, name: &str) -> String {
        let label = match self.label {
            Label::Error(Some(number)) => format!("error[{number}]"),
            Label::Error(None) => "error".to_owned(),
            Label::Doubt => "doubt".to_owned(),
        };
        let (line, column) = (self.line + 1, self.column + 1);
        let mut text = format!("{name}:{line}:{column}: {label}: {}\n", self.words);
        if !self.source.is_empty() {
            let (shown, caret) = window(&self.source, self.column);
            let _ = writeln!(text, "    {shown}\n    {}^", " ".repeat(caret));
        }
        if !self.help.is_empty() {
            let _ = writeln!(text, "    help: {}", self.help);
        }
        text
    }
}

/// A line as it is printed, and the column of the caret below: of a long line a part.
fn window(line: &[u8], column: usize) -> (String, usize) {
    let line = screen::printed(line);
    let from = if column < SHOWN {
        0
    } else {
        column - SHOWN / 2
    };
    let mut at = 0;
    let mut shown = String::new();
    for c in line.chars() {
        let columns = screen::width(c.to_string().as_bytes(), at);
        if (from..from + SHOWN).contains(&at) {
            shown.push(c);
        }
        at += columns;
    }
    (shown, column - from)
}

/// The message for a refusal of reading, redraw or the page. `table` is what was read.
pub fn refused(
    workspace: &mut Workspace,
    framed: &Framed<'_>,
    step: Step,
    refusal: Refusal,
    table: Option<&Table>,
) -> Message {
    let lines = framed.sheet();
    let place = refusal.place();
    match (refusal.kind(), step) {
        (RefusalKind::Empty, _) => {
            let message = Message::refusal(framed, 1, (0, 0), "there is no sheet");
            message.help("a sheet starts with a border: +---+")
        }
        (RefusalKind::LimitPassed, Step::Reading) => limit(framed, &lines),
        (RefusalKind::LimitPassed, Step::Redraw) => drawn_limit(framed),
        (RefusalKind::CharacterOutsideSet, Step::Reading) => character(framed, &lines, place),
        (RefusalKind::FirstLineNoBorder, _) => first_line(framed, &lines),
        (RefusalKind::LineShorterOrWider, _) => width(framed, &lines, place),
        (RefusalKind::NotPartedIntoCells, _) => not_parted(framed, &lines),
        (RefusalKind::TooManyCells, _) => {
            let words = "the sheet has more than 1,024 cells";
            Message::refusal(framed, 7, (0, 0), words).help("part it into two files")
        }
        (RefusalKind::AlignedColumnWithoutCorner, _) => {
            alignment(framed, &lines, workspace.layout(&lines).ok(), place)
        }
        (RefusalKind::CellWouldSplit, _) => split(workspace, framed, table, place),
        _ => unexpected(framed, step, refusal),
    }
}

/// 8, 9 and 12 to 14, and 3 of redraw: none is given for a sheet that was read.
fn unexpected(framed: &Framed<'_>, step: Step, refusal: Refusal) -> Message {
    let words = format!("{step}: {}", refusal.kind());
    let message = Message::refusal(framed, refusal.number(), (0, 0), words);
    message.help("this is not to happen with a sheet that was read; please report it")
}

/// The page's refusal: its text passes the limit.
pub fn page_refused(framed: &Framed<'_>, refusal: Refusal) -> Message {
    if refusal.kind() != RefusalKind::LimitPassed {
        return unexpected(framed, Step::Redraw, refusal);
    }
    let words = "the text of the page is longer than 32,768 bytes";
    let message = Message::refusal(framed, 2, (0, 0), words);
    message.help("`&`, `<` and `>` and each line's end take more bytes on the page; part the sheet")
}

/// Which limit of reading is passed; the width comes last, as in reading.
fn limit(framed: &Framed<'_>, lines: &[Line<'_>]) -> Message {
    let at = |r: usize, x: usize, words: String| Message::refusal(framed, 2, (r, x), words);
    let bytes: usize = lines.iter().map(|line| line.text.len()).sum();
    if lines.len() > 128 {
        let words = format!("the sheet has {} lines; at most 128 are read", lines.len());
        at(128, 0, words).help("part it into two files")
    } else if framed.frame.origin() > 255 {
        let words = format!(
            "the sheet is indented by {} blanks; at most 255 are read",
            framed.frame.origin()
        );
        at(0, 0, words).help("take blanks away at the start of each line")
    } else if let Some(r) = lines.iter().position(|line| line.text.len() > 512) {
        let words = format!(
            "this line has {} bytes; at most 512 are read",
            lines[r].text.len()
        );
        at(r, 0, words).help("take blanks away at its end, or part the sheet")
    } else if bytes > 32_768 {
        let words = format!("the sheet has {bytes} bytes; at most 32,768 are read");
        at(0, 0, words).help("part it into two files")
    } else {
        let width = trim_end(lines[0].text).len();
        let words = format!("the sheet is {width} columns wide; at most 128 are read");
        at(0, 128, words).help("make columns narrower, or part the sheet")
    }
}

fn drawn_limit(framed: &Framed<'_>) -> Message {
    let words = "redrawn, the sheet would pass a limit: 128 columns, 128 lines, 512 bytes a line, \
                 32,768 bytes";
    let message = Message::refusal(framed, 2, (0, 0), words);
    message
        .help("a text that touches its borders gets a blank, so columns grow; shorten the longest")
}

/// 3: the first character outside the set, with its code.
fn character(framed: &Framed<'_>, lines: &[Line<'_>], r: usize) -> Message {
    let line = lines[r];
    let (valid, byte) = match std::str::from_utf8(line.text) {
        Ok(text) => (text, None),
        Err(e) => {
            let (valid, rest) = line.text.split_at(e.valid_up_to());
            (std::str::from_utf8(valid).unwrap_or(""), rest.first())
        }
    };
    let column = |end: usize| screen::width(&line.text[..end], line.column.into());
    if let Some((at, c)) = valid.char_indices().find(|&(_, c)| !screen::in_set(c)) {
        let words = format!("the character {} is not in the set", named(c));
        return Message::refusal(framed, 3, (r, column(at)), words).help(instead(c));
    }
    let words = match byte {
        Some(byte) => format!("the byte {byte:02X} is not UTF-8"),
        None => "a character of this line is not in the set".to_owned(),
    };
    let message = Message::refusal(framed, 3, (r, column(valid.len())), words);
    message.help("save the file as UTF-8")
}

/// A character with its code; one that would not be seen by its code alone.
fn named(c: char) -> String {
    let code = format!("U+{:04X}", u32::from(c));
    let seen = screen::printed(c.to_string().as_bytes()).starts_with(c) && !c.is_whitespace();
    if seen && !instead(c).starts_with("it is not seen") {
        format!("{c} ({code})")
    } else {
        code
    }
}

/// What to write for a character outside the set.
fn instead(c: char) -> &'static str {
    match c {
        '\u{20AC}' => "write EUR",
        '\u{A0}' | '\u{2000}'..='\u{200A}' | '\u{202F}' => "it looks like a blank; write a blank",
        '\u{3000}' => "it looks like two blanks; write two blanks",
        '\u{30FC}' => "leave the long vowel mark out, or write － (U+FF0D)",
        '\u{3001}' | '\u{3002}' => "write ， (U+FF0C) or ． (U+FF0E)",
        '\u{2010}'..='\u{2015}' | '\u{2212}' => "write -",
        '\u{2018}' | '\u{2019}' => "write '",
        '\u{201C}'..='\u{201E}' => "write \"",
        '\u{2026}' => "write ...",
        '\u{2500}'..='\u{257F}' => "borders are drawn with +, -, = and |",
        '\u{AD}' | '\u{200B}'..='\u{200F}' | '\u{FEFF}' => "it is not seen; take it out",
        '\0' => "the file looks like UTF-16; save it as UTF-8",
        '\r' => "a line ends in LF or in CR LF",
        _ => "README, \"Characters\", has the set; write the text with those",
    }
}

/// 4: where the first line stops being a border.
fn first_line(framed: &Framed<'_>, lines: &[Line<'_>]) -> Message {
    let text = trim_end(lines[0].text);
    let continued = |end: usize, rest: &[u8]| is_rule([&text[..end], rest].concat(), b'-');
    let could_be = |&end: &usize| {
        [&b""[..], b"+", b"-+"]
            .iter()
            .any(|rest| continued(end, rest))
    };
    let good = (1..=text.len()).take_while(could_be).last().unwrap_or(0);
    let words = if text.len() > 1 && is_rule(text, b'=') {
        "the first line is a border of `=`; it must be of `-`"
    } else if good > 0 && good == text.len() {
        "the first line is a border without its end; it must end with `+`"
    } else {
        "the first line is no border: `+`, then `-` and `+` to its end"
    };
    let column = screen::width(&text[..good], lines[0].column.into());
    let message = Message::refusal(framed, 4, (0, column), words);
    message.help(
        "a sheet starts with its upper border, as in +-----+-----+; a colon may stand beside a `+`",
    )
}

/// 5: a line's width beside the first line's.
fn width(framed: &Framed<'_>, lines: &[Line<'_>], r: usize) -> Message {
    let columns = |line: &Line<'_>| screen::width(trim_end(line.text), line.column.into());
    let (own, first) = (columns(&lines[r]), columns(&lines[0]));
    if own == 0 {
        let words = format!("this line is empty, the first line is {first} columns wide");
        let message = Message::refusal(framed, 5, (r, 0), words);
        return message
            .help("a file is one sheet; put the lines below it into a file of their own");
    }
    let words = format!("this line is {own} columns wide, the first line {first}");
    let column = if own < first { own - 1 } else { first };
    let message = Message::refusal(framed, 5, (r, column), words);
    let text = trim_end(lines[r].text);
    let tab = if text.contains(&b'\t') {
        "; a tab goes to the next multiple of 4 columns"
    } else {
        ""
    };
    let lack = own.abs_diff(first);
    let columns = if lack == 1 { "column" } else { "columns" };
    message.help(match text.first() {
        Some(b'|' | b'+') if own < first => format!("it lacks {lack} {columns}{tab}"),
        Some(b'|' | b'+') => format!("it has {lack} {columns} too many{tab}"),
        _ => "a file is one sheet; take out what does not belong to it".to_owned(),
    })
}

/// 6: the corner at which tracing stopped, found anew.
fn not_parted(framed: &Framed<'_>, lines: &[Line<'_>]) -> Message {
    const NOT_PROVED: &str = "the place was found anew and is not part of the proof";
    let Some(corner) = corner::find(lines) else {
        let words = format!("the borders do not part the sheet into cells ({NOT_PROVED})");
        return Message::refusal(framed, 6, (0, 0), words);
    };
    let (above, origin) = (framed.above + 1, framed.frame.origin() + 1);
    let words = match corner.why {
        Why::NothingToPart => "a sheet has two border lines and two columns at least".to_owned(),
        Why::NoCell { right, down } => format!(
            "no cell can be closed from this corner: its upper border reaches column {}, its left \
             border line {}",
            origin + right,
            above + down
        ),
        Why::Overlap { at } => format!(
            "the cell that starts at this corner would run into the cell above it at column {}",
            origin + at
        ),
    };
    let help = match corner.why {
        Why::NothingToPart => "close the sheet with a lower border".to_owned(),
        _ => format!(
            "look for a `+`, `-` or `|` that is missing or beside its place, on the way around \
             this cell; {NOT_PROVED}"
        ),
    };
    Message::refusal(framed, 6, (corner.line, corner.column), words).help(help)
}

/// The screen columns of the column lines.
pub fn column_lines(layout: &Layout) -> Vec<usize> {
    let mut lines = vec![0];
    for column in &layout.columns {
        lines.push(lines[lines.len() - 1] + usize::from(column.width) + 1);
    }
    lines
}

/// 10: the column whose alignment would be lost.
fn alignment(
    framed: &Framed<'_>,
    lines: &[Line<'_>],
    layout: Option<Layout>,
    column: usize,
) -> Message {
    let separator = |line: &Line<'_>| is_rule(trim_end(line.text), b'=');
    let later = lines.iter().skip(1).position(separator);
    let r = later.map_or(0, |at| at + 1);
    let x = layout.map_or(0, |layout| column_lines(&layout)[column]);
    let words = format!(
        "column {} is aligned here, but no cell beside this line starts in that column, so redrawn \
         the line has no corner for its colon",
        column + 1
    );
    Message::refusal(framed, 10, (r, x), words).help(
        "take the colons of this segment out, or part the cell above or below it at this corner",
    )
}

/// 11: the bar that would be read as a border, in the file's own text.
fn split(
    workspace: &mut Workspace,
    framed: &Framed<'_>,
    table: Option<&Table>,
    k: usize,
) -> Message {
    let lines = framed.sheet();
    let bar = table.and_then(|table| splitting_bar(workspace, framed, table, k));
    let fragments = workspace.cell(&lines, k).unwrap_or_default();
    let Some((fragment, cell)) = fragments.first().zip(table.and_then(|t| t.cells.get(k))) else {
        let words = "the text of a cell would be read as a border, and the cell would split";
        return Message::refusal(framed, 11, (0, 0), words);
    };
    let r = fragment.line as usize;
    let before = fragment.byte as usize + bar.unwrap_or(0);
    let x = screen::width(&lines[r].text[..before], lines[r].column.into());
    let sign = lines[r].text.get(before).map_or('|', |&b| char::from(b));
    let words = format!(
        "redrawn, this `{sign}` would stand below a corner and above one, and be read as a border: \
         the cell in row {}, column {} would split",
        cell.row + 1,
        cell.column + 1
    );
    Message::refusal(framed, 11, (r, x), words)
        .help("put a blank before the text of this cell, or an empty line above it")
}

/// The byte, in a cell's first line, of a bar at which the cell would split. Redraw is asked:
/// with all bars of the line but one made letters it refuses the same cell only where that one
/// splits it.
fn splitting_bar(
    workspace: &mut Workspace,
    framed: &Framed<'_>,
    table: &Table,
    k: usize,
) -> Option<usize> {
    let origin = framed.frame.origin().try_into().ok()?;
    let line = table.cells.get(k)?.lines.first()?.clone();
    let is_bar = |byte: u8| matches!(byte, b'|' | b'+');
    let mut asked = table.clone();
    (0..line.len()).filter(|&at| is_bar(line[at])).find(|&at| {
        let letters = line.iter().enumerate();
        asked.cells[k].lines[0] = letters
            .map(|(i, &byte)| if i != at && is_bar(byte) { b'x' } else { byte })
            .collect();
        let answer = workspace.redraw(&asked, origin);
        answer.is_err_and(|r| r.kind() == RefusalKind::CellWouldSplit && r.place() == k)
    })
}

#[cfg(test)]
mod tests {
    use super::*;
    use crate::format;

    /// The message for a sheet that is refused.
    fn said(text: &str) -> String {
        said_of(text.as_bytes())
    }

    fn said_of(bytes: &[u8]) -> String {
        let formatted = format::format(&mut Workspace::new(), bytes);
        formatted.map(|_| ()).unwrap_err().render("sheet.txt")
    }

    fn assert_starts(text: &str, start: &str) {
        let said = said(text);
        assert!(said.starts_with(start), "{said}");
    }

    #[test]
    fn a_line_that_is_too_short_or_wide_is_shown_with_both_widths() {
        let sheet = "+---+---+\n| a | b|\n+---+---+\n";
        assert_eq!(
            said(sheet),
            "sheet.txt:2:8: error[5]: this line is 8 columns wide, the first line 9\n    \
             | a | b|\n           ^\n    help: it lacks 1 column\n"
        );
        assert_starts(
            "\n\n  +---+\n  | あ  |\n  +---+\n",
            "sheet.txt:4:8: error[5]: this line is 7 columns wide, the first line 5\n      | あ  |\n           ^\n",
        );
        let said = said("+---+\n|\ta |\n+---+\n");
        assert!(
            said.contains("has 2 columns too many; a tab goes to the next multiple of 4"),
            "{said}"
        );
        assert_starts(
            "+-+\n+-+\n\n+-+\n",
            "sheet.txt:3:1: error[5]: this line is empty",
        );
    }

    #[test]
    fn a_character_outside_the_set_is_named_with_its_code() {
        for (text, column, named, help) in [
            ("| € |", 3, "€ (U+20AC)", "write EUR"),
            ("|あ€|", 4, "€ (U+20AC)", "write EUR"),
            ("|\t😀|", 5, "😀 (U+1F600)", "README"),
            ("|\u{A0} |", 2, "U+00A0", "it looks like a blank"),
            ("|\u{200B} |", 2, "U+200B", "it is not seen"),
            ("|\u{1b}[1m|", 2, "U+001B", "README"),
            ("│a  │", 1, "│ (U+2502)", "borders are drawn with"),
        ] {
            let said = said(&format!("+---+\n{text}\n+---+\n"));
            let first = format!(
                "sheet.txt:2:{column}: error[3]: the character {named} is not in the set\n"
            );
            assert!(said.starts_with(&first), "{said}");
            assert!(said.contains(&format!("help: {help}")), "{said}");
            assert!(!said.contains('\u{1b}'));
        }
        let said = said_of(b"+---+\n| \xFF |\n+---+\n");
        assert!(
            said.starts_with("sheet.txt:2:3: error[3]: the byte FF is not UTF-8\n"),
            "{said}"
        );
    }

    /// Numbers that no sheet gets which was read; a caller's own table does.
    #[test]
    fn each_other_number_has_words_too() {
        let framed = crate::frame::take_off(b"+-+\n+-+\n").unwrap_or_else(|m| panic!("{m:?}"));
        let mut table = Table::read(&framed.sheet()).unwrap();
        table.sections = vec![gridtable::GridTableSection::Foot];
        let foot = table.redraw(0).unwrap_err();
        table.cells[0].colspan = 2;
        let grid = table.redraw(0).unwrap_err();
        let cell = gridtable::cell(&framed.sheet(), 1).unwrap_err();
        for (refusal, words) in [
            (grid, "error[8]: redraw: the table breaks a grid rule\n"),
            (
                foot,
                "error[9]: redraw: the table has a Foot row and no Head row\n",
            ),
            (
                cell,
                "error[13]: redraw: the arguments contradict each other\n",
            ),
        ] {
            let message = refused(&mut Workspace::new(), &framed, Step::Redraw, refusal, None);
            let said = message.render("sheet.txt");
            assert!(
                said.starts_with(&format!("sheet.txt:1:1: {words}")),
                "{said}"
            );
            assert!(said.contains("please report it"), "{said}");
        }
    }

    #[test]
    fn a_first_line_that_is_no_border_is_shown_where_it_stops_being_one() {
        for (line, column, words) in [
            ("Prices", 1, "the first line is no border: "),
            ("+-x-+", 3, "the first line is no border: "),
            ("+---++", 6, "the first line is no border: "),
            ("+-:-+", 4, "the first line is no border: "),
            ("+---", 5, "the first line is a border without its end"),
            ("+---+:-", 8, "the first line is a border without its end"),
            ("+===+", 2, "the first line is a border of `=`"),
        ] {
            let start = format!("sheet.txt:1:{column}: error[4]: {words}");
            assert_starts(&format!("{line}\n| a |\n+---+\n"), &start);
        }
    }

    #[test]
    fn each_limit_has_its_words() {
        let row = |width: usize| format!("+{}+\n", "-".repeat(width));
        let lines = |count: usize| format!("+-+\n{}+-+\n", "| |\n".repeat(count - 2));
        for (text, start) in [
            (
                row(127).repeat(2),
                "1:129: error[2]: the sheet is 129 columns wide; at most 128",
            ),
            (
                lines(129),
                "129:1: error[2]: the sheet has 129 lines; at most 128",
            ),
            (
                format!("+-+{}\n+-+\n", " ".repeat(510)),
                "1:1: error[2]: this line has 513 bytes; at most 512",
            ),
            (
                format!("+-+{}\n", " ".repeat(503)).repeat(65),
                "1:1: error[2]: the sheet has 32890 bytes",
            ),
            (
                format!("{}+-+\n", " ".repeat(256)).repeat(2),
                "1:257: error[2]: the sheet is indented by 256",
            ),
            (
                format!("{0}|{1}|\n{0}", row(126), "a".repeat(126)),
                "1:1: error[2]: redrawn, the sheet would pass",
            ),
        ] {
            assert_starts(&text, &format!("sheet.txt:{start}"));
        }
    }

    #[test]
    fn nothing_and_too_much_have_their_words() {
        assert_starts("", "sheet.txt:1:1: error[1]: there is no sheet\n");
        let line = format!("{}+\n", "+-".repeat(33));
        assert_starts(
            &line.repeat(33),
            "sheet.txt:1:1: error[7]: the sheet has more than 1,024 cells\n",
        );
    }

    #[test]
    fn the_corner_of_refusal_6_is_found_anew_and_that_is_said() {
        let said = said("\n +---+---+\n | a | b |\n +---+---+\n | c | d |\n +---+-  +\n");
        assert!(
            said.starts_with(
                "sheet.txt:4:6: error[6]: no cell can be closed from this corner: its upper border \
                 reaches column 10, its left border line 6\n     +---+---+\n         ^\n"
            ),
            "{said}"
        );
        assert!(said.contains("is not part of the proof"));
    }

    #[test]
    fn the_column_of_refusal_10_is_shown_and_the_help_helps() {
        let sheet = "+---+:--+\n|       |\n+---+---+\n|   |   |\n+---+---+\n";
        assert_starts(sheet, "sheet.txt:1:5: error[10]: column 2 is aligned here");
        let without = sheet.replace(':', "-");
        assert!(format::format(&mut Workspace::new(), without.as_bytes()).is_ok());
    }

    /// A cell whose bar comes to stand between two corners when its columns move.
    #[test]
    fn the_bar_of_refusal_11_is_shown_and_the_help_helps() {
        let cell = |text: &str| {
            let rule = "+---------+-----+\n";
            let row = |text: &str| format!("|{text:15}|\n");
            format!(
                " \n{rule}{}{rule}{text}{rule}{}{rule}",
                row("a        |b"),
                row("c        |d")
            )
        };
        let row = |text: &str| format!("|{text:15}|\n");
        let found = "error[11]: redrawn, this `|` would stand below a corner and above one";
        assert_starts(
            &cell(&row("x       |y")),
            &format!("sheet.txt:5:10: {found}"),
        );
        // Only the second bar comes below a corner.
        assert_starts(
            &cell(&row("x |     |y")),
            &format!("sheet.txt:5:10: {found}"),
        );
        for mended in [row(" x       |y"), row("") + &row("x       |y")] {
            let mended = cell(&mended);
            assert!(
                format::format(&mut Workspace::new(), mended.as_bytes()).is_ok(),
                "{mended}"
            );
        }
    }

    #[test]
    fn a_long_line_is_shown_in_part() {
        let (shown, caret) = window(&[b'a'; 1_000], 500);
        assert_eq!((shown.len(), caret), (SHOWN, SHOWN / 2));
    }
}
