//! Where a table, its rows and its cells stand in a document.

use crate::arrays::PositionsArrays;
use crate::ffi::{CellPositionReply, PositionsReply};

/// A line of a document, and a column in it, counted in bytes from 1.
#[derive(Clone, Copy, PartialEq, Eq, PartialOrd, Ord, Hash, Debug)]
pub struct LineColumn {
    /// The line's number.
    pub line: u32,
    /// The column in it.
    pub column: u32,
}

/// From where to where something stands. Where there is nothing, the end is one
/// column before the start.
#[derive(Clone, Copy, PartialEq, Eq, Hash, Debug)]
pub struct Sourcepos {
    /// Its first column.
    pub start: LineColumn,
    /// Its last column.
    pub end: LineColumn,
}

/// The positions of a table, its rows and its cells.
#[derive(Clone, PartialEq, Eq, Hash, Debug)]
pub struct Positions {
    /// Of the table.
    pub table: Sourcepos,
    /// Of each row.
    pub rows: Vec<Sourcepos>,
    /// Of each cell, in order of row, then column.
    pub cells: Vec<Sourcepos>,
}

fn sourcepos(entry: [u32; 4]) -> Sourcepos {
    let [line, column, end_line, end_column] = entry;
    Sourcepos {
        start: LineColumn { line, column },
        end: LineColumn {
            line: end_line,
            column: end_column,
        },
    }
}

impl Positions {
    pub(crate) fn copied(from: &PositionsArrays, reply: PositionsReply) -> Positions {
        let all = |entries: &[u32]| -> Vec<Sourcepos> {
            let entries = entries.chunks_exact(4);
            entries
                .map(|e| sourcepos([e[0], e[1], e[2], e[3]]))
                .collect()
        };
        Positions {
            table: sourcepos([
                reply.start_line,
                reply.start_column,
                reply.end_line,
                reply.end_column,
            ]),
            rows: all(&from.rows[..4 * reply.rows]),
            cells: all(&from.cells[..4 * reply.cells]),
        }
    }
}

impl Sourcepos {
    pub(crate) fn of(reply: CellPositionReply) -> Sourcepos {
        sourcepos([
            reply.start_line,
            reply.start_column,
            reply.end_line,
            reply.end_column,
        ])
    }
}
