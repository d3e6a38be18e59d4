//! The cases of the layout call: the papers' own, each refusal and each two
//! neighbours in their order, the limits, tabs at every origin, and drawings
//! of every kind.

use super::{List, refused};
use crate::given;
use crate::make::sheets::{self, Lines, even};
use crate::make::text::{self, Kind};
use crate::make::{Rng, edge};
use crate::paper::layout::{self, Layout, Space};
use crate::paper::sheet::Sheet;
use crate::paper::{Refusal, limits, listing, set};

/// Lengths of the working space and of the output arrays: glyphs, offsets,
/// down, right, rects, columns, rows, cells, ranges.
type Spaces = [usize; 9];

/// Those that the call names, and those of the largest results.
const ENOUGH: Spaces = [
    16_384, 16_384, 16_384, 16_384, 4_096, 254, 381, 5_120, 32_768,
];
const WORKING: usize = 5;
/// Entries of a column, a row, a cell and a range.
const ENTRIES: [usize; 4] = [2, 3, 5, 2];

pub fn cases(list: &mut List) {
    papers(list);
    for (sheet, room) in orders() {
        list.layout(&sheet, spaces(room, ENOUGH, WORKING));
    }
    sizes(list);
    outputs(list);
    for sheet in at_limits().iter().chain(&tabs()) {
        list.layout(sheet, ENOUGH);
    }
    let mut rng = Rng::new(6);
    for _ in 0..2_200 {
        let sheet = sheets::sheet(&mut rng);
        // An array of line lengths holds numbers below 65,536.
        if sheet.lengths.iter().all(|&n| n < 65_536) {
            list.layout(&sheet, ENOUGH);
        }
    }
}

impl List {
    fn layout(&mut self, sheet: &Sheet, spaces: Spaces) {
        let case = format!(
            "{} {} {} {} {} {}",
            sheet.lines,
            sheet.bytes,
            commas(&sheet.lengths),
            commas(&sheet.columns),
            packed(&sheet.text),
            if spaces == ENOUGH {
                "-".to_string()
            } else {
                commas(&spaces)
            }
        );
        let answer = match answer(sheet, spaces) {
            Ok(layout) => format!("accepted{}", numbers(&layout)),
            Err(refusal) => refused(refusal),
        };
        self.add(case, answer);
    }

    fn lines(&mut self, lines: &[&str]) {
        self.layout(&edge::sheet(lines), ENOUGH);
    }
}

pub fn commas(numbers: &[usize]) -> String {
    if numbers.is_empty() {
        return "-".to_string();
    }
    let words: Vec<String> = numbers.iter().map(usize::to_string).collect();
    words.join(",")
}

/// Hexadecimal pairs; five or more of one byte as `r`, their number and the
/// byte.
pub fn packed(text: &[u8]) -> String {
    if text.is_empty() {
        return "-".to_string();
    }
    let mut out = String::new();
    for run in text.chunk_by(|a, b| a == b) {
        if run.len() < 5 {
            out += &format!("{:02x}", run[0]).repeat(run.len());
        } else {
            out += &format!("r{:04x}{:02x}", run.len(), run[0]);
        }
    }
    out
}

/// Width and sizes, and the entries of the four arrays.
fn numbers(layout: &Layout) -> String {
    let mut all = layout.sizes().to_vec();
    all.extend(layout.arrays().concat());
    all.iter().map(|n| format!(" {n}")).collect()
}

/// What the Rust accepts has the Rust's values. A refusal's number and place
/// are document 01's; from 4 to 7 the Rust must have none of at most 1,024
/// cells either.
fn answer(sheet: &Sheet, spaces: Spaces) -> Result<Layout, Refusal> {
    if (0..WORKING).any(|i| spaces[i] < ENOUGH[i]) {
        return Err(Refusal {
            number: 13,
            place: 0,
        });
    }
    let room = |i: usize| spaces[WORKING + i] / ENTRIES[i];
    let space = Space {
        columns: room(0),
        rows: room(1),
        cells: room(2),
        inner: room(3),
    };
    match layout::read(sheet, space) {
        Ok(read) => {
            let rust = given::layout(sheet).unwrap();
            assert_eq!(rust, read);
            Ok(rust)
        }
        Err(refusal) => {
            if matches!(refusal.number, 4..=7) {
                let rust = given::layout(sheet);
                assert!(rust.is_none_or(|l| refusal.number == 7 && l.cells.len() > limits::CELLS));
            }
            Err(refusal)
        }
    }
}

/// The papers' sheets with the answers that they name, and the drawings of
/// their tables.
fn papers(list: &mut List) {
    for (sheet, listed) in edge::sheets() {
        let expected = match listed {
            Ok(text) => text.replace(';', "\n") + "\n",
            Err((number, place)) => format!("refused {number} {place}\n"),
        };
        let answered = match answer(&sheet, ENOUGH) {
            Ok(layout) => listing::listed(&layout),
            Err(refusal) => refused(refusal) + "\n",
        };
        assert_eq!(answered, expected);
        list.layout(&sheet, ENOUGH);
    }
    for (_, drawn) in edge::tables() {
        if let Ok(lines) = drawn {
            list.lines(lines);
        }
    }
}

/// A sheet whose lines are these bytes, all at column 0.
fn bytes(lines: &[&[u8]]) -> Sheet {
    let lines: Lines = lines.iter().map(|line| (line.to_vec(), 0)).collect();
    Sheet::of(&lines)
}

/// How much space a call gets.
#[derive(Clone, Copy)]
pub enum Room {
    Enough,
    NoOutput,
    Nothing,
}

/// Inputs on which a check and the next one of the order both hold. No lines
/// and a limit passed is missing: sizes that agree leave nothing to pass one.
pub fn orders() -> Vec<(Sheet, Room)> {
    let mut contradictory = edge::sheet(&[]);
    contradictory.bytes = 1;
    let mut without = contradictory.clone();
    without.lengths = vec![0];
    let long = format!("+{}", "-".repeat(128));
    let wide = format!("+{}+", "-".repeat(127));
    let mut many = even(33, 32, 1, 1);
    many.push((b"+".to_vec(), 0));
    vec![
        // 13 and 1, by sizes and by space.
        (contradictory, Room::Enough),
        (without, Room::Enough),
        (edge::sheet(&[]), Room::Nothing),
        // 13 and 12.
        (edge::sheet(&["+-+", "+-+"]), Room::Nothing),
        // 2 and 3.
        (bytes(&[&[0xC3; 513]]), Room::Enough),
        (bytes(&[&b"\x80"[..]; 129]), Room::Enough),
        (bytes(&[&[0xFF; 256][..]; 128]), Room::Enough),
        (bytes(&[&[0xFF; 257][..]; 128]), Room::Enough),
        (Sheet::of(&[(b"\r".to_vec(), 256)]), Room::Enough),
        // 3 and 4.
        (bytes(&[b"x", b"\x80"]), Room::Enough),
        (bytes(&[b"\xED\xA0\x80", b"+-+"]), Room::Enough),
        (edge::sheet(&["++", "++", "\u{A0}"]), Room::Enough),
        // 4 and a width past 128.
        (edge::sheet(&[&long]), Room::Enough),
        (edge::sheet(&[&format!("{long}x"), "x"]), Room::Enough),
        // The width and 5.
        (edge::sheet(&[&wide, "x"]), Room::Enough),
        (edge::sheet(&[&wide, ""]), Room::Enough),
        // 5 and 6, 5 and 7.
        (edge::sheet(&["+-+", "x"]), Room::Enough),
        (edge::sheet(&["+-+", "   ", "+-++"]), Room::Enough),
        (Sheet::of(&many), Room::Enough),
        // 6 and 12, 7 and 12.
        (edge::sheet(&["+-+", "| |"]), Room::NoOutput),
        (Sheet::of(&even(33, 32, 1, 1)), Room::NoOutput),
    ]
}

/// The lengths of the arrays, of which the first are working space.
pub fn spaces<const N: usize>(room: Room, enough: [usize; N], working: usize) -> [usize; N] {
    let mut spaces = enough;
    match room {
        Room::Enough => {}
        Room::NoOutput => spaces[working..].fill(0),
        Room::Nothing => spaces.fill(0),
    }
    spaces
}

/// 13: a sheet, and sheets whose sizes the arrays contradict.
pub fn contradictions() -> (Sheet, Vec<Sheet>) {
    let right = edge::sheet(&["+-+", "| |", "+-+"]);
    let changes: [fn(&mut Sheet); 12] = [
        |s| s.lines += 1,
        |s| s.lines -= 1,
        |s| s.bytes += 1,
        |s| s.bytes -= 1,
        |s| s.lengths.push(0),
        |s| s.lengths.truncate(2),
        |s| s.columns.push(0),
        |s| s.columns.truncate(2),
        |s| s.text.push(b'+'),
        |s| s.text.truncate(8),
        |s| s.lengths[1] += 1,
        |s| s.lengths[2] = 65_535,
    ];
    let changed = |change: &fn(&mut Sheet)| {
        let mut sheet = right.clone();
        change(&mut sheet);
        sheet
    };
    let sheets = changes.iter().map(changed).collect();
    (right, sheets)
}

/// 13: those, and each working space one short.
fn sizes(list: &mut List) {
    let (right, sheets) = contradictions();
    for sheet in &sheets {
        list.layout(sheet, ENOUGH);
    }
    for i in 0..WORKING {
        let mut spaces = ENOUGH;
        spaces[i] -= 1;
        list.layout(&right, spaces);
        spaces[i] = 0;
        list.layout(&right, spaces);
    }
}

/// 12: each output array of just the result's length, one short, and empty.
fn outputs(list: &mut List) {
    let mut sheets: Vec<Sheet> = edge::small_sheets()
        .iter()
        .map(|s| edge::sheet(s))
        .collect();
    sheets.push(Sheet::of(&even(3, 2, 2, 3)));
    sheets.push(Sheet::of(&even(32, 32, 1, 1)));
    for sheet in &sheets {
        let Ok(read) = answer(sheet, ENOUGH) else {
            continue;
        };
        let counts = [
            read.columns.len(),
            read.rows.len(),
            read.cells.len(),
            read.cells.iter().map(|c| c.inner.len()).sum(),
        ];
        let mut exact = ENOUGH;
        for i in 0..4 {
            exact[WORKING + i] = counts[i] * ENTRIES[i];
        }
        list.layout(sheet, exact);
        for i in WORKING..exact.len() {
            let mut spaces = exact;
            for short in [exact[i].saturating_sub(1), 0] {
                spaces[i] = short;
                list.layout(sheet, spaces);
            }
        }
    }
}

/// At each limit and one past it.
pub fn at_limits() -> Vec<Sheet> {
    let mut sheets = vec![];
    for over in 0..2 {
        let mut lines: Vec<Lines> = vec![
            even(1, 1, 1, 126 + over),
            even(1, 127 + over, 1, 0),
            even(127, 1, 0, 1),
            even(1, 1, 126 + over, 1),
            even(63, 63, 1, 1),
            even(32 + over, 32, 1, 1),
            even(32, 32 + over, 3, 1),
            even(8, 126, 1, 0),
        ];
        let mut long = even(2, 1, 3, 1);
        long[1].0.resize(512 + over, b' ');
        lines.push(long);
        let mut marks = even(1, 1, 2, 1);
        marks[1]
            .0
            .splice(2..2, "\u{301}".repeat(254 + over).bytes());
        lines.push(marks);
        let mut much = even(1, 1, 5, 126);
        for line in &mut much {
            line.0.resize(256, b'\t');
        }
        much[127].0.resize(256 + over, b' ');
        lines.push(much);
        let mut far = even(1, 1, 5, 1);
        far[2].1 = 255 + over;
        lines.push(far);
        // 1,024 rectangles, and then something untraceable or one more.
        let mut more = even(32, 32, 1, 1);
        more.push((format!("|{}|", " ".repeat(63)).into_bytes(), 0));
        let last = [" ", "-"][over];
        more.push((format!("+{}+", last.repeat(63)).into_bytes(), 0));
        lines.push(more);
        sheets.extend(lines.iter().map(|lines| Sheet::of(lines)));
    }
    sheets
}

/// A tab after the border, then tabs, marks and wide characters, in two
/// cells, with all lines at each column.
pub fn tabs() -> Vec<Sheet> {
    let mut rng = Rng::new(7);
    let mut sheets = vec![];
    for column in 0..256 {
        let mut lines = even(2, 1, 9, 3);
        for line in &mut lines {
            line.1 = column;
        }
        for line in &mut lines[1..4] {
            let taken = set::tab_columns(column + 1);
            let first = text::filling(&mut rng, Kind::Mixed, column + 1 + taken, 9 - taken);
            let second = text::filling(&mut rng, Kind::Mixed, column + 11, 9);
            line.0 = format!("|\t{first}|{second}|").into_bytes();
        }
        sheets.push(Sheet::of(&lines));
    }
    sheets
}
