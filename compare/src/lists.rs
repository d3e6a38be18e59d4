//! `compare lists`: fixed lists of cases with their answers, for programs
//! that replay them.

mod beside;
mod layout;
mod redraw;
mod table;

use std::fs;
use std::io;
use std::path::Path;

use crate::make::{Rng, text};
use crate::paper::{Refusal, set};
use crate::parser::TAB_STOP;
use crate::parser::grid_table::{is_rule, trim_end};
use crate::print::hex;
use unicode_width::UnicodeWidthChar;

pub fn write(folder: &Path) -> io::Result<()> {
    let mut list = List::default();
    trims(&mut list);
    rules(&mut list);
    decodes(&mut list);
    widths(&mut list);
    tabs(&mut list);
    list.write(&folder.join("replay_text"))?;
    let mut list = List::default();
    layout::cases(&mut list);
    list.write(&folder.join("replay_layout"))?;
    let mut list = List::default();
    table::cases(&mut list);
    list.write(&folder.join("replay_table"))?;
    let mut list = List::default();
    redraw::cases(&mut list);
    list.write(&folder.join("replay_redraw"))?;
    let mut list = List::default();
    beside::cases(&mut list);
    beside::print_counts(&list);
    list.write(&folder.join("replay_beside"))
}

/// A large number that the lists' programs read whole.
const FAR: usize = 99_999_999_999_999_999;

fn refused(refusal: Refusal) -> String {
    format!("refused {} {}", refusal.number, refusal.place)
}

/// One case a line, one answer a line.
#[derive(Default)]
struct List {
    cases: String,
    answers: String,
}

impl List {
    fn write(self, folder: &Path) -> io::Result<()> {
        fs::create_dir_all(folder)?;
        fs::write(folder.join("stdin"), self.cases)?;
        fs::write(folder.join("stdout"), self.answers)
    }

    fn add(&mut self, case: String, answer: String) {
        self.cases += &(case + "\n");
        self.answers += &(answer + "\n");
    }

    fn trim(&mut self, line: &str) {
        let answer = trim_end(line).len().to_string();
        self.add(format!("t {}", hex(line.as_bytes())), answer);
    }

    fn rule(&mut self, fill: u8, line: &str) {
        let answer = if is_rule(line, fill) { "1" } else { "0" };
        let case = format!("r {fill} {}", hex(line.as_bytes()));
        self.add(case, answer.to_string());
    }

    fn decode(&mut self, at: usize, bytes: &[u8]) {
        let answer = match decoded(bytes, at) {
            Some(c) => format!("C {} {}", u32::from(c), c.len_utf8()),
            None => "B".to_string(),
        };
        self.add(format!("d {at} {}", hex(bytes)), answer);
    }

    fn width(&mut self, value: u32) {
        let columns = char::from_u32(value).and_then(|c| c.width());
        let answer = columns.map_or("N".to_string(), |n| n.to_string());
        self.add(format!("w {value}"), answer);
    }
}

/// The character of the set that is well-formed UTF-8 at this byte.
fn decoded(bytes: &[u8], at: usize) -> Option<char> {
    let rest = bytes.get(at..)?;
    let c = (1..=rest.len().min(4))
        .filter_map(|n| std::str::from_utf8(&rest[..n]).ok())
        .find_map(|text| text.chars().next())?;
    (c == '\t' || c.width().is_some()).then_some(c)
}

fn trims(list: &mut List) {
    for body in [
        "", "a", " a", "a b", "\ta", "+-+", "|", "\u{301}", "\u{4E2D}",
    ] {
        for ending in ["", " ", "\t", " \t", "\t  "] {
            list.trim(&(body.to_string() + ending));
        }
    }
    // White space elsewhere, but not here.
    for line in [
        "a\r",
        "a\n",
        "a\u{B} ",
        "a\u{A0}",
        "\u{85}",
        "\u{2003} ",
        "\u{3000}",
    ] {
        list.trim(line);
    }
    let mut rng = Rng::new(1);
    for _ in 0..90 {
        let length = rng.between(0, 14);
        let ending = rng.pick(&["", " ", "\t", " \t", "   "]);
        let line = text::line(&mut rng, text::Kind::Mixed, length) + ending;
        list.trim(&line);
    }
}

const RULES: &str = "+ ++ +++ - -- = | -+ =+ +- += +-- +-+ +--+ +-++ ++-+ +-+- +-+-+ +-+--+---+
    +=+ +==+=+ +=-+ +-=+ +-+=+ +:+ +::+ +:::+ +:-+ +-:+ +:-:+ +::-+ +-::+ +::-:+ +-:-+ +:-:-:+
    +:--:+ +:=+ +=:+ +:=:+ +:==:+ +=:=+ +:+-+ +-+:+ +:-+-:+:-:+ +:-+:=+ x+-+ +x+ +-x+ +-|+
    +-\u{301}+ +\u{4E2D}+ : :+ +: +:- +-: +:-: +-+: +-+:- +-+:-: +-+x";

fn rules(list: &mut List) {
    let mut lines: Vec<String> = RULES.split_whitespace().map(str::to_string).collect();
    for line in ["", " +-+", "+-+ ", "+ +", "+- +", "+-\t+", "+-+ +"] {
        lines.push(line.to_string());
    }
    // A colon at every place of two rules, and every place left out.
    for rule in ["+---+--+-+", "+===+==+=+"] {
        for at in 0..rule.len() {
            let (before, after) = (&rule[..at], &rule[at + 1..]);
            lines.push(format!("{before}:{after}"));
            lines.push(format!("{before}{after}"));
        }
    }
    for line in &lines {
        list.rule(b'-', line);
        list.rule(b'=', line);
    }
    for (fill, line) in [
        (b'+', "+"),
        (b'+', "+++"),
        (b'+', "+-+"),
        (b':', "+:+"),
        (b':', "+::+"),
        (b':', "+:::+"),
        (b':', "+::::+"),
        (b'x', "+x+xx+"),
        (b'x', "+:x:+"),
        (b' ', "+ +"),
        (0x80, "+-+"),
        (0xC3, "+\u{E9}+"),
        (0, "+\0+"),
    ] {
        list.rule(fill, line);
    }
    let mut rng = Rng::new(2);
    for _ in 0..100 {
        let length = rng.between(1, 9);
        let fill = rng.pick(b"-=");
        let line: String = (0..length)
            .map(|_| char::from(rng.pick(&[b'+', fill, fill, b':', b'-'])))
            .collect();
        list.rule(fill, &format!("+{line}+"));
    }
}

/// Alone, cut short, overlong, surrogates, past the last code point, stray
/// bytes behind the first.
const BYTES: &str = "- 61 09 7f 80 8f 90 9f a0 bf c0 c1 c2 c3 df e0 e4 ed ef f0 f4 f5 f8 ff
    c080 c1bf c27f c2a0 c2c0 c3a9a9 c361 cc80 cc8178 e08080 e09fbf e0a080 e381 e38181 e38161
    e36181 e4b8 e4b8ad e4b8adad ed9ea3 ed9fbf eda080 edbfbf efbca1 efbfbf f0808080 f08fbfbf
    f09f9880 f09f98 f48fbfbf f4908080 f5808080 ffffffff";

fn unhex(word: &str) -> Vec<u8> {
    if word == "-" {
        return vec![];
    }
    (0..word.len())
        .step_by(2)
        .map(|i| u8::from_str_radix(&word[i..i + 2], 16).unwrap())
        .collect()
}

fn decodes(list: &mut List) {
    let mut values: Vec<u32> = edges();
    values.extend([9, 10, 13, 0, 0x41, 0x7FF, 0x800, 0xFFFF, 0x10000, 0x10FFFF]);
    for value in values {
        let mut space = [0; 4];
        if let Some(c) = char::from_u32(value) {
            list.decode(0, c.encode_utf8(&mut space).as_bytes());
        }
    }
    for word in BYTES.split_whitespace() {
        list.decode(0, &unhex(word));
    }
    // Every offset of a mixed line, and some past its end.
    let mixed = "a\u{E9}\t\u{301}\u{3042}\u{4E2D}\u{D55C}|\u{FF21}\r\u{1F600}+".as_bytes();
    for at in 0..mixed.len() + 3 {
        list.decode(at, mixed);
    }
    list.decode(usize::from(u16::MAX), b"a");
    let mut rng = Rng::new(3);
    for _ in 0..100 {
        let first = rng.pick(&[0x61, 0xC2, 0xC3, 0xCD, 0xE3, 0xE4, 0xEA, 0xED, 0xEF, 0xF0]);
        let mut bytes = vec![first];
        for _ in 0..rng.between(0, 3) {
            bytes.push(rng.pick(&[0x80, 0x81, 0x9F, 0xA0, 0xAF, 0xBF, 0x7F, 0xC0]));
        }
        list.decode(rng.below(2), &bytes);
    }
}

/// Each end of each range of the set, and its neighbours.
fn edges() -> Vec<u32> {
    let mut values = vec![];
    for (first, last, _) in set::RANGES {
        values.extend([first - 1, first, first + 1, last - 1, last, last + 1]);
    }
    values
}

fn widths(list: &mut List) {
    for value in edges() {
        list.width(value);
    }
    for value in [
        0,
        1,
        8,
        9,
        10,
        13,
        0x1F,
        0x7F,
        0x80,
        0x9F,
        0xA0,
        0xAD,
        0x200B,
        0x3000,
        0xD800,
        0xDFFF,
        0xE000,
        0xFFFF,
        0x10000,
        0x1F600,
        0x10FFFF,
        0x110000,
        0xFFFF_FFFF,
    ] {
        list.width(value);
    }
    let mut rng = Rng::new(4);
    for _ in 0..80 {
        let most = rng.pick(&[0x400, 0x4000, 0x11000]);
        list.width(rng.between(0, most) as u32);
    }
}

fn tabs(list: &mut List) {
    for column in (0..20).chain([126, 127, 128, 251, 252, 253, 254, 255, 383, 384, 511]) {
        let columns = TAB_STOP - column % TAB_STOP;
        list.add(format!("b {column}"), columns.to_string());
    }
}
