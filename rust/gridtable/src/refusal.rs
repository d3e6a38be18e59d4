//! What a call refuses, and where.

use std::error::Error;
use std::fmt;

/// Why a call refused. The words are those of the project's table of refusals.
#[derive(Clone, Copy, PartialEq, Eq, PartialOrd, Ord, Hash, Debug)]
pub enum RefusalKind {
    /// 1: the drawing has no lines; or the table has no columns, rows or cells.
    Empty = 1,
    /// 2: a limit is passed.
    LimitPassed,
    /// 3: a line is not UTF-8, or has a character outside the set.
    CharacterOutsideSet,
    /// 4: the first line is no border.
    FirstLineNoBorder,
    /// 5: a line is shorter or wider than the first one.
    LineShorterOrWider,
    /// 6: the borders do not part the drawing into cells.
    NotPartedIntoCells,
    /// 7: a 1,025th cell was found.
    TooManyCells,
    /// 8: a table breaks a grid rule: cells overlap, leave a gap or the grid,
    /// stand out of order, or cross from one section to another; or sections
    /// are out of order.
    GridRuleBroken,
    /// 9: a table has a Foot row and no Head row, which can't be drawn.
    FootWithoutHead,
    /// 10: an aligned column has no corner on the line that shows alignments.
    AlignedColumnWithoutCorner,
    /// 11: a cell's text would be read as a border, and the cell would split.
    CellWouldSplit,
    /// 12: the output space is too short for the result. The crate's own is
    /// long enough, so no function of it answers this.
    OutputTooShort,
    /// 13: the arguments contradict each other: a cell number past the end, a
    /// range that runs backwards, past its line or into a character; or a line
    /// end's number is 0, or its start past its end.
    ArgumentsContradict,
    /// 14: the register of line ends is full.
    RegisterFull,
}

impl RefusalKind {
    /// All kinds, in order of their numbers.
    pub const ALL: [RefusalKind; 14] = [
        RefusalKind::Empty,
        RefusalKind::LimitPassed,
        RefusalKind::CharacterOutsideSet,
        RefusalKind::FirstLineNoBorder,
        RefusalKind::LineShorterOrWider,
        RefusalKind::NotPartedIntoCells,
        RefusalKind::TooManyCells,
        RefusalKind::GridRuleBroken,
        RefusalKind::FootWithoutHead,
        RefusalKind::AlignedColumnWithoutCorner,
        RefusalKind::CellWouldSplit,
        RefusalKind::OutputTooShort,
        RefusalKind::ArgumentsContradict,
        RefusalKind::RegisterFull,
    ];

    /// Its number, from 1 to 14.
    pub fn number(self) -> usize {
        self as usize
    }

    /// What a refusal's place counts, where it counts something.
    fn counted(self) -> Option<&'static str> {
        match self {
            RefusalKind::CharacterOutsideSet | RefusalKind::LineShorterOrWider => Some("line"),
            RefusalKind::AlignedColumnWithoutCorner => Some("column"),
            RefusalKind::CellWouldSplit => Some("cell"),
            _ => None,
        }
    }
}

impl fmt::Display for RefusalKind {
    fn fmt(&self, f: &mut fmt::Formatter<'_>) -> fmt::Result {
        f.write_str(match self {
            RefusalKind::Empty => {
                "the drawing has no lines, or the table no columns, rows or cells"
            }
            RefusalKind::LimitPassed => "a limit is passed",
            RefusalKind::CharacterOutsideSet => {
                "a line is not UTF-8, or has a character outside the set"
            }
            RefusalKind::FirstLineNoBorder => "the first line is no border",
            RefusalKind::LineShorterOrWider => "a line is shorter or wider than the first one",
            RefusalKind::NotPartedIntoCells => "the borders do not part the drawing into cells",
            RefusalKind::TooManyCells => "a 1,025th cell was found",
            RefusalKind::GridRuleBroken => "the table breaks a grid rule",
            RefusalKind::FootWithoutHead => "the table has a Foot row and no Head row",
            RefusalKind::AlignedColumnWithoutCorner => {
                "an aligned column has no corner on the line that shows alignments"
            }
            RefusalKind::CellWouldSplit => {
                "a cell's text would be read as a border, and the cell would split"
            }
            RefusalKind::OutputTooShort => "the output space is too short for the result",
            RefusalKind::ArgumentsContradict => "the arguments contradict each other",
            RefusalKind::RegisterFull => "the register of line ends is full",
        })
    }
}

/// A call's refusal: why, and where.
///
/// ```
/// use gridtable::{Line, RefusalKind};
///
/// let refusal = gridtable::layout(&["+-+", "|"].map(Line::from)).unwrap_err();
/// assert_eq!(refusal.kind(), RefusalKind::LineShorterOrWider);
/// assert_eq!((refusal.number(), refusal.place()), (5, 1));
/// assert_eq!(
///     refusal.to_string(),
///     "a line is shorter or wider than the first one (refusal 5, line 1 counted from 0)"
/// );
/// ```
#[derive(Clone, Copy, PartialEq, Eq, Hash, Debug)]
pub struct Refusal {
    kind: RefusalKind,
    place: usize,
}

impl Refusal {
    pub(crate) const LIMIT_PASSED: Refusal = Refusal {
        kind: RefusalKind::LimitPassed,
        place: 0,
    };
    pub(crate) const EMPTY: Refusal = Refusal {
        kind: RefusalKind::Empty,
        place: 0,
    };

    /// Why, by name.
    pub fn kind(self) -> RefusalKind {
        self.kind
    }

    /// Why, by number, from 1 to 14.
    pub fn number(self) -> usize {
        self.kind.number()
    }

    /// The line (3, 5), column (10) or cell (11) that is meant, counted from 0;
    /// else 0. In a table, lines are counted over all cells in order.
    pub fn place(self) -> usize {
        self.place
    }

    /// What a reply says: acceptance where the number is 0.
    pub(crate) fn check(number: usize, place: usize) -> Result<(), Refusal> {
        if number == 0 {
            return Ok(());
        }
        let kind = RefusalKind::ALL[number - 1];
        Err(Refusal { kind, place })
    }
}

impl fmt::Display for Refusal {
    fn fmt(&self, f: &mut fmt::Formatter<'_>) -> fmt::Result {
        write!(f, "{} (refusal {}", self.kind, self.number())?;
        if let Some(counted) = self.kind.counted() {
            write!(f, ", {counted} {} counted from 0", self.place)?;
        }
        f.write_str(")")
    }
}

impl Error for Refusal {}

/// A step of [`redraw_sheet`](crate::redraw_sheet).
#[derive(Clone, Copy, PartialEq, Eq, Hash, Debug)]
pub enum Step {
    /// From the drawing to its table.
    Reading,
    /// From the table to its drawing.
    Redraw,
}

impl fmt::Display for Step {
    fn fmt(&self, f: &mut fmt::Formatter<'_>) -> fmt::Result {
        f.write_str(match self {
            Step::Reading => "reading",
            Step::Redraw => "redraw",
        })
    }
}

/// A refusal by one of the two steps from a drawing to its redrawing.
#[derive(Clone, Copy, PartialEq, Eq, Hash, Debug)]
pub struct SheetRefusal {
    /// The step that refused.
    pub step: Step,
    /// What it refused.
    pub refusal: Refusal,
}

impl fmt::Display for SheetRefusal {
    fn fmt(&self, f: &mut fmt::Formatter<'_>) -> fmt::Result {
        write!(f, "{}: {}", self.step, self.refusal)
    }
}

impl Error for SheetRefusal {}
