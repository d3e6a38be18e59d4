//! Stands in for comrak's html.rs: the walk over a table and the small
//! helpers; source positions and block ids are off.

mod context;
mod grid_table;

use std::fmt::{self, Write};

use crate::nodes::{Node, NodeValue, TableAlignment};
use crate::options::{Options, Plugins};
pub use context::Context;

pub enum ChildRendering {
    HTML,
}

pub struct Anchorizer;

impl Anchorizer {
    fn new() -> Self {
        Anchorizer
    }
}

#[derive(Default)]
pub struct TableCellIndexer;

fn escape(output: &mut dyn Write, text: &str) -> fmt::Result {
    output.write_str(text)
}

fn escape_href(output: &mut dyn Write, text: &str, _relaxed: bool) -> fmt::Result {
    output.write_str(text)
}

fn render_sourcepos<T>(_context: &mut Context<T>, _node: Node<'_>) -> fmt::Result {
    Ok(())
}

fn render_block_id<T>(_context: &mut Context<T>, _node: Node<'_>) -> fmt::Result {
    Ok(())
}

fn render_alignment<T>(context: &mut Context<T>, alignment: TableAlignment) -> fmt::Result {
    match alignment {
        TableAlignment::Left => context.write_str(" align=\"left\""),
        TableAlignment::Right => context.write_str(" align=\"right\""),
        TableAlignment::Center => context.write_str(" align=\"center\""),
        TableAlignment::None => Ok(()),
    }
}

fn visit(context: &mut Context<()>, node: Node<'_>, entering: bool) -> fmt::Result {
    match node.data().value {
        NodeValue::GridTable(..) => grid_table::render_grid_table(context, node, entering),
        NodeValue::GridTableRow(section) => {
            grid_table::render_grid_table_row(context, node, entering, section)
        }
        NodeValue::GridTableCell(cell) => {
            grid_table::render_grid_table_cell(context, node, entering, cell)
        }
        NodeValue::Text(ref text) => return entering_text(context, text, entering),
        _ => unreachable!(),
    }
    .map(|ChildRendering::HTML| ())
}

fn entering_text(context: &mut Context<()>, text: &str, entering: bool) -> fmt::Result {
    if entering {
        context.write_str(text)?;
    }
    Ok(())
}

fn walk(context: &mut Context<()>, node: Node<'_>) -> fmt::Result {
    visit(context, node, true)?;
    for child in node.children() {
        walk(context, child)?;
    }
    visit(context, node, false)
}

/// The page of a table, column widths on or off.
pub fn page(table: Node<'_>, widths: bool) -> String {
    let mut options = Options::default();
    options.render.grid_table_widths = widths;
    let plugins = Plugins::default();
    let mut out = String::new();
    let mut context = Context::new(&mut out, &options, &plugins, ());
    walk(&mut context, table).unwrap();
    context.finish().unwrap();
    out
}
