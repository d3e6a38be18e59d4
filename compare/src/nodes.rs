//! Stands in for comrak's nodes.rs: the node values, positions and tree types
//! that the given files name.

use std::cell::RefCell;

use crate::arena::TypedArena;
use crate::arena_tree;

macro_rules! node_matches {
    ($node:expr, $( $pat:pat_param )|+) => {
        matches!($node.data().value, $( $pat )|+)
    };
}
pub(crate) use node_matches;

pub type AstNode<'a> = arena_tree::Node<'a, RefCell<Ast>>;
pub type Node<'a> = &'a AstNode<'a>;
pub type Arena<'a> = TypedArena<AstNode<'a>>;

/// The values that the given files tell apart, and two of our own: `Text`, a
/// cell's ready content, and `CutLine`, a line handed to a cell's parser.
#[allow(dead_code)]
pub enum NodeValue {
    Document,
    Paragraph,
    Item(()),
    TaskItem(()),
    Table(()),
    HtmlBlock(NodeHtmlBlock),
    SoftBreak,
    LineBreak,
    GridTable(Box<NodeGridTable>),
    GridTableRow(GridTableSection),
    GridTableCell(NodeGridTableCell),
    Text(String),
    CutLine(String, usize),
}

impl NodeValue {
    pub fn block(&self) -> bool {
        !matches!(self, NodeValue::SoftBreak | NodeValue::LineBreak)
    }
}

pub struct NodeHtmlBlock {
    pub block_type: u8,
}

#[derive(Clone, Copy, PartialEq, Eq)]
pub enum TableAlignment {
    None,
    Left,
    Center,
    Right,
}

#[derive(Default)]
pub struct NodeGridTable {
    pub columns: Vec<GridTableColumn>,
}

#[derive(Clone, Copy)]
pub struct GridTableColumn {
    pub alignment: TableAlignment,
    pub width: usize,
}

#[derive(Clone, Copy, PartialEq, Eq)]
pub enum GridTableSection {
    Head,
    Body,
    Foot,
}

#[derive(Clone, Copy)]
pub struct NodeGridTableCell {
    pub column: usize,
    pub colspan: usize,
    pub rowspan: usize,
}

pub struct Ast {
    pub value: NodeValue,
    pub sourcepos: Sourcepos,
    pub open: bool,
    pub lines: Option<Box<BlockLines>>,
}

pub struct BlockLines {
    pub offsets: Vec<usize>,
    pub escaped_pipes: Vec<LineColumn>,
}

impl Ast {
    pub fn new(value: NodeValue, start: LineColumn) -> Self {
        Ast::new_with_sourcepos(value, (start.line, start.column, start.line, 0).into())
    }

    pub fn new_with_sourcepos(value: NodeValue, sourcepos: Sourcepos) -> Self {
        Ast {
            value,
            sourcepos,
            open: true,
            lines: None,
        }
    }
}

impl From<Ast> for AstNode<'_> {
    fn from(ast: Ast) -> Self {
        arena_tree::Node::new(RefCell::new(ast))
    }
}

impl From<NodeValue> for AstNode<'_> {
    fn from(value: NodeValue) -> Self {
        Ast::new(value, (0, 0).into()).into()
    }
}

#[derive(Clone, Copy, PartialEq, Eq, Debug)]
pub struct LineColumn {
    pub line: usize,
    pub column: usize,
}

impl From<(usize, usize)> for LineColumn {
    fn from((line, column): (usize, usize)) -> Self {
        LineColumn { line, column }
    }
}

#[derive(Clone, Copy, PartialEq, Eq, Debug)]
pub struct Sourcepos {
    pub start: LineColumn,
    pub end: LineColumn,
}

impl From<(usize, usize, usize, usize)> for Sourcepos {
    fn from((l0, c0, l1, c1): (usize, usize, usize, usize)) -> Self {
        Sourcepos {
            start: (l0, c0).into(),
            end: (l1, c1).into(),
        }
    }
}
