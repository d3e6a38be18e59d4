//! The cases of the redraw call: the papers' tables, each refusal and each two
//! of them at once, the limits, every origin, short arrays, and tables of every
//! kind.

use super::layout::{commas, packed};
use super::{FAR, List, refused};
use crate::draws::answers;
use crate::library::DRAW_SPACE;
use crate::make::tables::{self, even};
use crate::make::{Rng, edge, seeking};
use crate::paper::flat::Flat;
use crate::paper::layout::{BODY, CENTER, FOOT, LEFT, NONE};
use crate::paper::limits;
use crate::paper::sheet::Sheet;
use crate::paper::table::Table;
use crate::paper::{Answer, refuse};

/// Lengths of the working space (starts, ends, firsts, heights, wides, rects,
/// canvas), and of the output arrays (line lengths, line columns, text).
#[derive(Clone, Copy, PartialEq, Eq)]
struct Spaces {
    working: [usize; 7],
    output: [usize; 3],
}

/// Those that the call names, and those of the largest drawing.
const ENOUGH: Spaces = Spaces {
    working: DRAW_SPACE,
    output: [limits::LINES, limits::LINES, limits::BYTES],
};

/// A generated table whose case or answer is longer than this is left out.
const LONGEST: usize = 400;

pub fn cases(list: &mut List) {
    papers(list);
    orders(list);
    sizes(list);
    outputs(list);
    for (table, origin) in at_limits().iter().chain(&origins()) {
        list.table_at(table, *origin);
    }
    let mut rng = Rng::new(10);
    for _ in 0..1_000 {
        let origin = rng.pick(&[0, 1, 2, 3, 255]);
        let (table, origin) = match rng.below(3) {
            0 => (seeking::table(&mut rng, origin), origin),
            _ => tables::table(&mut rng),
        };
        let flat = Flat::of(&table);
        let (case, answer) = line(&flat, origin, ENOUGH);
        if case.len() <= LONGEST && answer.len() <= LONGEST {
            list.add(case, answer);
        }
    }
}

impl List {
    fn redraw(&mut self, flat: &Flat, origin: usize, spaces: Spaces) {
        let (case, answer) = line(flat, origin, spaces);
        self.add(case, answer);
    }

    fn table_at(&mut self, table: &Table, origin: usize) {
        self.redraw(&Flat::of(table), origin, ENOUGH);
    }
}

/// A case and its answer.
fn line(flat: &Flat, origin: usize, spaces: Spaces) -> (String, String) {
    let mut words = vec![origin.to_string()];
    words.extend(flat.sizes.iter().map(usize::to_string));
    words.push(commas(&numbers(&flat.columns)));
    words.push(packed(&flat.sections));
    words.push(commas(&numbers(&flat.cells)));
    words.push(commas(&numbers(&flat.lengths)));
    words.push(packed(&flat.text));
    words.push(match spaces {
        ENOUGH => "-".to_string(),
        _ => commas(&[&spaces.working[..], &spaces.output].concat()),
    });
    let answer = match answer(flat, origin, spaces) {
        Ok(drawn) => accepted(&drawn),
        Err(refusal) => refused(refusal),
    };
    (words.join(" "), answer)
}

fn numbers(entries: &[u16]) -> Vec<usize> {
    entries.iter().map(|&n| n.into()).collect()
}

/// Sizes, line lengths, line columns and the text as it is.
fn accepted(drawn: &Sheet) -> String {
    let sizes = [drawn.lines, drawn.bytes];
    let all = [&sizes[..], &drawn.lengths, &drawn.columns].concat();
    let numbers: String = all.iter().map(|n| format!(" {n}")).collect();
    let text = std::str::from_utf8(&drawn.text).unwrap();
    format!("accepted{numbers} {text}")
}

/// The drawing is the Rust's. A refusal's number and place are document 01's,
/// and the Rust's drawing, where there is one, then reads back otherwise or is
/// past a limit.
fn answer(flat: &Flat, origin: usize, spaces: Spaces) -> Answer<Sheet> {
    let short = |given: &[usize], need: &[usize]| given.iter().zip(need).any(|(g, n)| g < n);
    if short(&spaces.working, &ENOUGH.working) {
        return refuse(13, 0);
    }
    let Some(table) = flat.table() else {
        return refuse(13, 0);
    };
    let drawn = answers::answer(&table, origin).unwrap().answer?;
    if short(&spaces.output, &[drawn.lines, drawn.lines, drawn.bytes]) {
        return refuse(12, 0);
    }
    Ok(drawn)
}

/// The papers' tables with the answers that they name, and the tables that
/// their sheets read as.
fn papers(list: &mut List) {
    for (table, named) in edge::tables() {
        let expected = match named {
            Ok(lines) => Ok(edge::sheet(lines)),
            Err((number, place)) => refuse(number, place),
        };
        assert_eq!(answer(&Flat::of(&table), 0, ENOUGH), expected);
        list.table_at(&table, 0);
    }
    let listed = edge::sheets();
    let small = edge::small_sheets();
    let sheets = listed.into_iter().map(|(sheet, _)| sheet);
    for sheet in sheets.chain(small.iter().map(|lines| edge::sheet(lines))) {
        if let Some(table) = answers::sheet(&sheet, 0).unwrap().table {
            list.table_at(&table, 0);
        }
    }
}

/// What redraw refuses, in its order, each with a change that brings it about
/// in a table that is otherwise accepted.
const REFUSALS: [(usize, fn(&mut Table, &mut usize, &mut Spaces)); 11] = [
    (13, |_, _, spaces| spaces.working[6] -= 1),
    (13, |table, _, _| table.bytes += 1),
    (1, |table, _, _| {
        *table = Table {
            columns: table.columns,
            rows: table.rows,
            alignments: table.alignments.clone(),
            widths: table.widths.clone(),
            sections: table.sections.clone(),
            ..Table::default()
        };
    }),
    (2, |_, origin, _| *origin = limits::LINE_COLUMN + 1),
    (3, |table, _, _| table.text[0] = b'\r'),
    (8, |table, _, _| table.places[5].rowspan = 2),
    (9, |table, _, _| table.sections.fill(FOOT)),
    (10, |table, _, _| table.alignments[1] = LEFT),
    (2, |table, _, _| table.widths[2] = limits::WIDTH),
    (11, |table, _, _| table.text[4] = b'|'),
    (12, |_, _, spaces| spaces.output[2] = 10),
];

/// Each of them, and each two at once: the one that comes first is answered. A
/// change made twice is still that refusal alone.
fn orders(list: &mut List) {
    let base = edge::table(
        &[(NONE, 1); 3],
        &[BODY; 4],
        &[
            ((0, 0, 3, 1), &["a"]),
            ((1, 0, 1, 1), &["b"]),
            ((1, 1, 2, 1), &["c"]),
            ((2, 0, 3, 1), &["x-y"]),
            ((3, 0, 1, 1), &["d"]),
            ((3, 1, 1, 1), &["e"]),
            ((3, 2, 1, 1), &["f"]),
        ],
    );
    assert!(answer(&Flat::of(&base), 0, ENOUGH).is_ok());
    list.table_at(&base, 0);
    for (i, (number, first)) in REFUSALS.iter().enumerate() {
        for (_, second) in &REFUSALS[i..] {
            let (mut table, mut origin, mut spaces) = (base.clone(), 0, ENOUGH);
            // The later one first: no cells leave nothing to change.
            second(&mut table, &mut origin, &mut spaces);
            first(&mut table, &mut origin, &mut spaces);
            let flat = Flat::of(&table);
            assert_eq!(answer(&flat, origin, spaces).unwrap_err().number, *number);
            list.redraw(&flat, origin, spaces);
        }
    }
}

/// 13: sizes that the arrays contradict, numbers that are no alignment or
/// section, and each working space one short, and empty; before 1.
fn sizes(list: &mut List) {
    let right = Flat::of(&edge::three_rows(&["x|y", "z"]));
    for i in 0..right.sizes.len() {
        for size in [right.sizes[i] + 1, right.sizes[i] - 1, 0, FAR] {
            let mut flat = right.clone();
            flat.sizes[i] = size;
            list.redraw(&flat, 0, ENOUGH);
        }
    }
    let changes: [fn(&mut Flat); 17] = [
        |f| f.columns.push(0),
        |f| f.columns.truncate(3),
        |f| f.columns.truncate(2),
        |f| f.columns[0] = CENTER as u16 + 1,
        |f| f.columns[2] = u16::MAX,
        |f| f.sections.push(BODY as u8),
        |f| f.sections.truncate(2),
        |f| f.sections[1] = FOOT as u8 + 1,
        |f| f.sections[2] = u8::MAX,
        |f| f.cells.push(0),
        |f| f.cells.truncate(20),
        |f| f.cells[4] += 1,
        |f| f.cells[14] = u16::MAX,
        |f| f.lengths.push(0),
        |f| f.lengths[0] += 1,
        |f| f.lengths[2] = u16::MAX,
        |f| f.text.push(b'x'),
    ];
    for change in changes {
        let mut flat = right.clone();
        change(&mut flat);
        assert_eq!(answer(&flat, 0, ENOUGH), refuse(13, 0));
        list.redraw(&flat, 0, ENOUGH);
    }
    let nothing = Flat::of(&Table::default());
    list.redraw(&nothing, 0, ENOUGH);
    for i in 0..ENOUGH.working.len() {
        for short in [ENOUGH.working[i] - 1, 0] {
            let mut spaces = ENOUGH;
            spaces.working[i] = short;
            list.redraw(&right, 0, spaces);
            list.redraw(&nothing, 0, spaces);
        }
    }
}

/// 12: each output array of just the result's length, one short, and empty.
fn outputs(list: &mut List) {
    let mut rng = Rng::new(11);
    let mut tables: Vec<Table> = edge::tables().into_iter().map(|(table, _)| table).collect();
    tables.extend((0..12).map(|_| tables::valid(&mut rng)));
    for table in &tables {
        let flat = Flat::of(table);
        let Ok(drawn) = answer(&flat, 3, ENOUGH) else {
            continue;
        };
        let mut exact = ENOUGH;
        exact.output = [drawn.lines, drawn.lines, drawn.bytes];
        list.redraw(&flat, 3, exact);
        for i in 0..exact.output.len() {
            for short in [exact.output[i] - 1, 0] {
                let mut spaces = exact;
                spaces.output[i] = short;
                list.redraw(&flat, 3, spaces);
            }
        }
    }
}

/// At each limit and one past it: first what is handed in, then what is drawn.
fn at_limits() -> Vec<(Table, usize)> {
    let mut rng = Rng::new(12);
    let mut tables = vec![];
    for over in 0..2 {
        let x = || b"x".to_vec();
        let mark = "\u{301}";
        let mut blank = vec![vec![b' '; limits::LINE_BYTES]; 64];
        blank.push(vec![b'\t'; over]);
        let marked = "x".repeat(1 + over) + &mark.repeat(254);
        let mut heavy = vec![("x".to_string() + &mark.repeat(128)).into_bytes(); 126];
        heavy[0].splice(0..1, ["x", "\u{E9}"][over].bytes());
        let mut shapes = vec![
            even(&mut rng, 1, limits::COLUMNS + over, &[]),
            even(&mut rng, limits::ROWS + over, 1, &[]),
            even(&mut rng, [32, 41][over], [32, 25][over], &[]),
            even(&mut rng, 1, 1, &vec![vec![]; limits::LINES + over]),
            even(&mut rng, 1, 1, &[vec![b' '; limits::LINE_BYTES + over]]),
            even(&mut rng, 1, 1, &blank),
            even(&mut rng, 1, 63 + over, &[]),
            even(&mut rng, 63 + over, 1, &[]),
            even(&mut rng, 1, 1, &vec![x(); 126 + over]),
            even(&mut rng, 1, 1, &[marked.into_bytes()]),
            even(&mut rng, 1, 1, &heavy),
            even(&mut rng, 1, 1, &vec![vec![b'x'; 125 + over]; 126]),
        ];
        for width in [limits::WIDTH, 126] {
            let mut table = even(&mut rng, 1, 1, &[x()]);
            table.widths[0] = width + over;
            shapes.push(table);
        }
        shapes.push(many_lines(over));
        tables.extend(shapes.into_iter().map(|table| (table, 0)));
        tables.push((edge::three_rows(&["x|y"]), limits::LINE_COLUMN + over));
    }
    tables
}

/// 16,384 lines in all, none of which is drawn; or one more.
fn many_lines(over: usize) -> Table {
    let mut table = even(&mut Rng::new(13), 43, 3, &vec![vec![]; limits::LINES]);
    let last = table.places.last_mut().unwrap();
    last.lines = over;
    table.lines -= limits::LINES - over;
    table.lengths.truncate(table.lines);
    table
}

/// At each origin a bar behind a tab, which meets the column line where the
/// tab takes one column, and other text that seeks it.
fn origins() -> Vec<(Table, usize)> {
    let mut rng = Rng::new(14);
    let mut tables = vec![];
    for origin in 0..=limits::LINE_COLUMN {
        tables.push((edge::three_rows(&["\t|y"]), origin));
        let mut table = edge::table(
            &[(NONE, 1); 2],
            &[BODY; 3],
            &[
                ((0, 0, 1, 1), &[]),
                ((0, 1, 1, 1), &[]),
                ((1, 0, 2, 1), &[]),
                ((2, 0, 1, 1), &[]),
                ((2, 1, 1, 1), &[]),
            ],
        );
        seeking::fill(&mut rng, &mut table, origin);
        tables.push((table, origin));
    }
    tables
}
