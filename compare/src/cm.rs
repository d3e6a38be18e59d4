//! Stands in for comrak's CommonMark formatter: a cell formats as its ready
//! text, and each row of a drawing ends with a line feed.

mod grid_table;

use std::fmt::{self, Write};

use crate::nodes::{Node, NodeValue};
use crate::options::Options;

pub struct CommonMarkFormatter<'a, 'o, 'c, 'w> {
    root: Node<'a>,
    options: &'o Options<'c>,
    out: &'w mut dyn Write,
    prefix: String,
    in_tight_list_item: bool,
    grid_table_indent: usize,
}

pub enum Escaping {
    Literal,
}

impl<'a, 'o, 'c, 'w> CommonMarkFormatter<'a, 'o, 'c, 'w> {
    fn new(root: Node<'a>, options: &'o Options<'c>, out: &'w mut dyn Write) -> Self {
        CommonMarkFormatter {
            root,
            options,
            out,
            prefix: String::new(),
            in_tight_list_item: false,
            grid_table_indent: 0,
        }
    }

    fn format(&mut self, node: Node<'a>) -> fmt::Result {
        assert!(node.same_node(self.root));
        for child in node.children() {
            if let NodeValue::Text(text) = &child.data().value {
                self.out.write_str(text)?;
            }
        }
        Ok(())
    }

    fn output(&mut self, text: &str, _wrap: bool, _escaping: Escaping) -> fmt::Result {
        self.out.write_str(text)
    }

    fn cr(&mut self) {
        self.out.write_str("\n").unwrap();
    }

    fn blankline(&mut self) {}
}

fn tight_container(_node: Node<'_>) -> bool {
    false
}

/// `format_grid_table` at an origin: the drawn rows, each with a line feed.
pub fn draw(table: Node<'_>, origin: usize) -> String {
    let options = Options::default();
    let mut out = String::new();
    let mut formatter = CommonMarkFormatter::new(table, &options, &mut out);
    formatter.prefix = " ".repeat(origin);
    formatter.format_grid_table(table).unwrap();
    out
}
