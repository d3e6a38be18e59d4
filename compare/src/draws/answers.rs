//! What the redraw calls must answer: the Rust's drawing where they accept,
//! document 01's number and place where they refuse.

use crate::against;
use crate::given;
use crate::library::RedrawReply;
use crate::paper::draw::Plan;
use crate::paper::redraw::{self, Space};
use crate::paper::sheet::Sheet;
use crate::paper::table::{self, Table};
use crate::paper::{Answer, Refusal, cut, limits};

/// A drawing of more slots is not drawn by the Rust: it is past the limits.
const MOST_SLOTS: usize = 1 << 17;

/// As what the Rust reads its own drawing of a table that keeps the grid rules.
#[derive(Clone, Copy, PartialEq, Eq, Debug)]
pub enum Back {
    Same,
    Other,
    Nothing,
    PastLimit,
    NotDrawn,
}

impl Back {
    pub fn name(self) -> &'static str {
        match self {
            Back::Same => "reads back: the same table",
            Back::Other => "reads back: another table",
            Back::Nothing => "reads back: none",
            Back::PastLimit => "reads back: drawn past a limit",
            Back::NotDrawn => "reads back: past a limit by far, not drawn",
        }
    }
}

/// An answer, and how the drawing is read back where one can be made.
pub struct Answered {
    pub answer: Answer<Sheet>,
    pub back: Option<Back>,
}

/// The oracles contradict each other: what they say.
pub type Agreed<T> = Result<T, String>;

/// Both oracles on one table: the drawing is the Rust's, and comes back as the
/// same table exactly where document 01 accepts.
pub fn answer(table: &Table, origin: usize) -> Agreed<Answered> {
    let answer = redraw::redraw(table, origin, Space::ENOUGH);
    if !keeps_rules(table, origin, &answer) {
        return Ok(Answered { answer, back: None });
    }
    let (drawing, back) = match &answer {
        Err(_) if slots(table) > MOST_SLOTS => (None, Back::NotDrawn),
        _ => {
            let rust = given::draw(table, origin);
            let back = read_back(&rust, table);
            (Some(rust), back)
        }
    };
    let agree = match &answer {
        Ok(drawn) => drawing.as_ref() == Some(drawn) && back == Back::Same,
        Err(Refusal { number: 2, .. }) => matches!(back, Back::PastLimit | Back::NotDrawn),
        // The drawn size was looked at before 11.
        Err(Refusal { number: 11, .. }) => matches!(back, Back::Other | Back::Nothing),
        Err(_) => back != Back::Same,
    };
    if !agree {
        return Err(format!("{answer:?}, but the Rust {back:?} {drawing:?}"));
    }
    let back = Some(back);
    Ok(Answered { answer, back })
}

/// Whether the checks up to 8 are passed.
fn keeps_rules(table: &Table, origin: usize, answer: &Answer<Sheet>) -> bool {
    match answer {
        Ok(_) => true,
        Err(refusal) => match refusal.number {
            9..=11 => true,
            2 => redraw::check_table(table, origin).is_ok(),
            _ => false,
        },
    }
}

fn slots(table: &Table) -> usize {
    let plan = Plan::new(table);
    plan.width() * plan.height()
}

/// The Rust's layout and cutting of its drawing.
fn read_back(drawn: &Sheet, given: &Table) -> Back {
    let past = drawn.lines > limits::LINES
        || drawn.line(0).len() > limits::WIDTH
        || drawn.bytes > limits::BYTES
        || drawn.lengths.iter().any(|&l| l > limits::LINE_BYTES);
    if past {
        return Back::PastLimit;
    }
    match given::table(drawn) {
        None => Back::Nothing,
        Some(read) if table::same(&read, given) => Back::Same,
        Some(_) => Back::Other,
    }
}

/// A drawing's answer, and the table between.
pub struct SheetAnswered {
    pub step: usize,
    pub answer: Answer<Sheet>,
    pub back: Option<Back>,
    pub table: Option<Table>,
}

/// Both oracles on one drawing that is read and drawn again.
pub fn sheet(sheet: &Sheet, origin: usize) -> Agreed<SheetAnswered> {
    let Some(read) = against::answer(sheet) else {
        return Err("layouts differ".to_string());
    };
    if let Err(refusal) = read {
        return Ok(SheetAnswered {
            step: 1,
            answer: Err(refusal),
            back: None,
            table: None,
        });
    }
    let table = given::table(sheet).unwrap();
    if cut::read_table(sheet).as_ref() != Ok(&table) {
        return Err(format!("the Rust reads {table:?}"));
    }
    let Answered { answer, back } = self::answer(&table, origin)?;
    Ok(SheetAnswered {
        step: if answer.is_ok() { 0 } else { 2 },
        answer,
        back,
        table: Some(table),
    })
}

/// A call's answer, and what it writes.
#[derive(Debug)]
pub struct Expected {
    pub reply: RedrawReply,
    pub lengths: Vec<u16>,
    pub columns: Vec<u16>,
    pub text: Vec<u8>,
}

impl Expected {
    pub fn refused(number: usize, place: usize) -> Expected {
        Expected {
            reply: RedrawReply {
                number,
                place,
                ..RedrawReply::default()
            },
            lengths: vec![],
            columns: vec![],
            text: vec![],
        }
    }

    pub fn of(answer: &Answer<Sheet>) -> Expected {
        match answer {
            Err(refusal) => Expected::refused(refusal.number, refusal.place),
            Ok(drawn) => Expected {
                reply: RedrawReply {
                    number: 0,
                    place: 0,
                    lines: drawn.lines,
                    bytes: drawn.bytes,
                },
                lengths: entries(&drawn.lengths),
                columns: entries(&drawn.columns),
                text: drawn.text.clone(),
            },
        }
    }

    /// The lengths of the output arrays that it fills.
    pub fn output(&self) -> [usize; 3] {
        [self.lengths.len(), self.columns.len(), self.text.len()]
    }
}

fn entries(numbers: &[usize]) -> Vec<u16> {
    numbers.iter().map(|&n| u16::try_from(n).unwrap()).collect()
}
