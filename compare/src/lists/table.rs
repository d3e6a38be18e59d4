//! The cases of the table call: the papers' sheets, each refusal, the limits,
//! tabs at every origin, spans, and drawings of every kind.

use super::layout::{at_limits, commas, contradictions, packed, tabs};
use super::{List, refused};
use crate::given;
use crate::make::sheets::{self, even};
use crate::make::{Rng, edge};
use crate::paper::layout::{self, Space};
use crate::paper::sheet::Sheet;
use crate::paper::table::Table;
use crate::paper::{Refusal, cut, limits};

/// Lengths of the working space and of the output arrays: glyphs, offsets,
/// down, right, rects, starts, counts, columns, sections, cells, lengths, text.
type Spaces = [usize; 12];

/// Those that the call names, and those of the largest results.
const ENOUGH: Spaces = [
    16_384, 16_384, 16_384, 16_384, 4_096, 128, 1_024, 254, 127, 5_120, 16_384, 32_768,
];
const WORKING: usize = 7;

pub fn cases(list: &mut List) {
    for (sheet, _) in edge::sheets() {
        list.table(&sheet, ENOUGH);
    }
    for (_, drawn) in edge::tables() {
        if let Ok(lines) = drawn {
            list.table(&edge::sheet(lines), ENOUGH);
        }
    }
    for sheet in blanks().iter().chain(&at_limits()).chain(&tabs()) {
        list.table(sheet, ENOUGH);
    }
    sizes(list);
    outputs(list);
    let mut rng = Rng::new(8);
    for _ in 0..1_200 {
        let sheet = sheets::sheet(&mut rng);
        // An array of line lengths holds numbers below 65,536.
        if sheet.lengths.iter().all(|&n| n < 65_536) {
            list.table(&sheet, ENOUGH);
        }
    }
}

impl List {
    fn table(&mut self, sheet: &Sheet, spaces: Spaces) {
        let case = format!(
            "{} {} {} {} {} {}",
            sheet.lines,
            sheet.bytes,
            commas(&sheet.lengths),
            commas(&sheet.columns),
            packed(&sheet.text),
            if spaces == ENOUGH {
                "-".to_string()
            } else {
                commas(&spaces)
            }
        );
        let answer = match answer(sheet, spaces) {
            Ok(table) => format!("accepted{}", numbers(&table)),
            Err(refusal) => refused(refusal),
        };
        self.add(case, answer);
    }
}

/// Sizes, and the entries of the five arrays.
fn numbers(table: &Table) -> String {
    let mut all = table.sizes().to_vec();
    all.extend(table.arrays().concat());
    all.iter().map(|n| format!(" {n}")).collect()
}

/// What the Rust accepts has the Rust's values. A refusal's number and place
/// are document 01's; from 4 to 7 the Rust must have none of at most 1,024
/// cells either.
fn answer(sheet: &Sheet, spaces: Spaces) -> Result<Table, Refusal> {
    let refused = |number| Err(Refusal { number, place: 0 });
    if (0..WORKING).any(|i| spaces[i] < ENOUGH[i]) {
        return refused(13);
    }
    match layout::read(sheet, Space::ENOUGH) {
        Ok(read) => {
            let rust = given::table(sheet).unwrap();
            assert_eq!(rust, cut::table_of(sheet, &read));
            let short = |(array, &room): (&Vec<usize>, &usize)| array.len() > room;
            if rust.arrays().iter().zip(&spaces[WORKING..]).any(short) {
                return refused(12);
            }
            Ok(rust)
        }
        Err(refusal) => {
            if matches!(refusal.number, 4..=7) {
                let rust = given::layout(sheet);
                assert!(rust.is_none_or(|l| refusal.number == 7 && l.cells.len() > limits::CELLS));
            }
            Err(refusal)
        }
    }
}

/// Blank last lines, blank lines between others, first tabs and spaces, marks
/// and wide characters at a border, in cells of every span.
fn blanks() -> Vec<Sheet> {
    let drawings: [&[&str]; 6] = [
        &[
            "+----+----+",
            "|    | a  |",
            "|    |    |",
            "| b  |    |",
            "|    |    |",
            "+----+----+",
        ],
        &[
            "+----+----+",
            "|\ta|  b |",
            "|\t|\tc|",
            "+----+    |",
            "| d  |    |",
            "+----+----+",
        ],
        &[
            "+----+",
            "|\u{301}a   |",
            "|\u{4E2D}\u{4E2D}|",
            "| \u{301}   |",
            "|    |",
            "+----+",
        ],
        &["+-+-+", "+-+ |", "| +-+", "| | |", "+-+-+"],
        &[
            "+--+--+--+",
            "|a b  |c |",
            "|     |  |",
            "+--+--+d |",
            "|e |f |  |",
            "|  +--+--+",
            "|  |g    |",
            "+--+-----+",
        ],
        &[
            "+---+", "| a |", "+===+", "|   |", "| b |", "+===+", "| c |", "+===+",
        ],
    ];
    drawings.iter().map(|lines| edge::sheet(lines)).collect()
}

/// 13: sizes that the arrays contradict, each working space one short, and
/// empty; before 1 and 12.
fn sizes(list: &mut List) {
    let (right, sheets) = contradictions();
    for sheet in &sheets {
        list.table(sheet, ENOUGH);
    }
    for i in 0..WORKING {
        for short in [ENOUGH[i] - 1, 0] {
            let mut spaces = ENOUGH;
            spaces[i] = short;
            list.table(&right, spaces);
            list.table(&edge::sheet(&[]), spaces);
        }
    }
    list.table(&right, Spaces::default());
}

/// 12: each output array of just the result's length, one short, and empty.
fn outputs(list: &mut List) {
    let mut sheets = blanks();
    sheets.extend(edge::small_sheets().iter().map(|s| edge::sheet(s)));
    sheets.push(Sheet::of(&even(3, 2, 2, 3)));
    for sheet in &sheets {
        let Ok(table) = answer(sheet, ENOUGH) else {
            continue;
        };
        let mut exact = ENOUGH;
        for (room, array) in exact[WORKING..].iter_mut().zip(table.arrays()) {
            *room = array.len();
        }
        list.table(sheet, exact);
        for i in WORKING..exact.len() {
            for short in [exact[i].saturating_sub(1), 0] {
                let mut spaces = exact;
                spaces[i] = short;
                list.table(sheet, spaces);
            }
        }
    }
}
