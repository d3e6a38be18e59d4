//! Stands in for comrak's block parser: the state and the calls that the
//! given files use. A line handed to a cell's parser is only written down.

pub mod fragments;
pub mod grid_table;
pub mod inlines;

use std::cell::Cell;

use crate::nodes::{Arena, Ast, Node, NodeValue};
use crate::options::Options;
use inlines::{Delimiters, RefMap};

pub(crate) const TAB_STOP: usize = 4;

pub struct Parser<'a: 'd, 'o, 'c, 'd> {
    arena: &'a Arena<'a>,
    delimiter_arena: &'d Delimiters,
    options: &'o Options<'c>,
    refmap: RefMap,
    root: Node<'a>,
    current: Node<'a>,
    line_number: usize,
    offset: usize,
    column: usize,
    first_nonspace: usize,
    first_nonspace_column: usize,
    indent: usize,
    blank: bool,
    curline_end_col: usize,
    grid_table: Option<grid_table::Pending<'a>>,
    grid_table_suppressed: bool,
    grid_table_depth: usize,
    cell_line_ends: Vec<grid_table::CellLineEnd>,
    cancellation: Cancellation<'o>,
}

impl<'a: 'd, 'o, 'c, 'd> Parser<'a, 'o, 'c, 'd>
where
    'c: 'o,
{
    fn new(
        arena: &'a Arena<'a>,
        root: Node<'a>,
        options: &'o Options<'c>,
        callback: Option<&'o dyn Fn() -> bool>,
        delimiter_arena: &'d Delimiters,
    ) -> Self {
        Parser {
            arena,
            delimiter_arena,
            options,
            refmap: RefMap::new(),
            root,
            current: root,
            line_number: 0,
            offset: 0,
            column: 0,
            first_nonspace: 0,
            first_nonspace_column: 0,
            indent: 0,
            blank: false,
            curline_end_col: 0,
            grid_table: None,
            grid_table_suppressed: false,
            grid_table_depth: 0,
            cell_line_ends: vec![],
            cancellation: Cancellation {
                callback,
                cancelled: Cell::new(false),
            },
        }
    }

    /// Writes the line down at its number and column 0, so that the given
    /// remapping of positions then shows the fragment's own line and byte.
    fn process_line(&mut self, line: &str, column: usize) {
        self.line_number += 1;
        let text = line.strip_suffix('\n').unwrap().to_string();
        let place = (self.line_number, 0, self.line_number, 0).into();
        let ast = Ast::new_with_sourcepos(NodeValue::CutLine(text, column), place);
        self.root.append(self.arena.alloc(ast.into()));
    }

    fn finalize_blocks(&mut self) -> Result<(), ()> {
        Ok(())
    }

    fn close_unmatched_blocks(&mut self) {}

    fn add_child(&mut self, parent: Node<'a>, value: NodeValue, column: usize) -> Node<'a> {
        let ast = Ast::new(value, (self.line_number, column).into());
        let child = self.arena.alloc(ast.into());
        parent.append(child);
        child
    }
}

struct Cancellation<'o> {
    callback: Option<&'o dyn Fn() -> bool>,
    cancelled: Cell<bool>,
}

impl Cancellation<'_> {
    fn step(&self) -> bool {
        false
    }

    fn check(&self) -> Result<(), ()> {
        Ok(())
    }
}
