//! Stands in for comrak's options: the switches that the given files look at.

use std::marker::PhantomData;

#[derive(Default)]
pub struct Options<'c> {
    pub extension: Extension,
    pub parse: Parse,
    pub render: Render,
    pub lifetime: PhantomData<&'c ()>,
}

#[derive(Default)]
pub struct Extension {
    pub grid_table: bool,
}

#[derive(Default)]
pub struct Parse {
    pub relaxed_autolinks: bool,
}

#[derive(Default)]
pub struct Render {
    pub compact_html: bool,
    pub grid_table_widths: bool,
}

#[derive(Default)]
pub struct Plugins<'p> {
    pub lifetime: PhantomData<&'p ()>,
}
