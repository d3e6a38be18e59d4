//! Working space that is kept from call to call.

use std::fmt;

use crate::arrays::{
    self, CellArrays, DrawingArrays, DrawnArrays, LayoutArrays, PositionsArrays, ReadingArrays,
    Sheet, TableArrays,
};
use crate::fragment::fragments;
use crate::page::inner_of;
use crate::{
    Drawing, Fragment, Layout, Line, Page, Positions, Refusal, RefusalKind, SheetRefusal,
    SourceLine, Sourcepos, Step, Table, TableCell, ffi,
};

/// The crate's calls with their working space kept, so that a loop over sheets
/// allocates it once. The functions of the same names make one for each call.
///
/// ```
/// use gridtable::{Line, Workspace};
///
/// let mut workspace = Workspace::new();
/// for text in ["+---+\n| a |\n+---+", "+-+\n+-+"] {
///     let lines: Vec<Line> = text.lines().map(Line::from).collect();
///     assert_eq!(workspace.layout(&lines)?.rows.len(), 1);
/// }
/// # Ok::<(), gridtable::Refusal>(())
/// ```
#[derive(Default)]
pub struct Workspace {
    given: Given,
    flat: Flat,
    page: Vec<u8>,
    // Each group is made at its first use.
    reading: Option<ReadingArrays>,
    drawing: Option<DrawingArrays>,
    layout: Option<LayoutArrays>,
    table: Option<TableArrays>,
    drawn: Option<DrawnArrays>,
    positions: Option<PositionsArrays>,
    cell: Option<CellArrays>,
}

impl Workspace {
    /// An empty one; its arrays are made when a call first needs them.
    pub fn new() -> Workspace {
        Workspace::default()
    }

    /// As [`layout`](crate::layout()).
    pub fn layout(&mut self, lines: &[Line<'_>]) -> Result<Layout, Refusal> {
        let sheet = self.given.sheet(lines)?;
        let space = self.reading.get_or_insert_with(ReadingArrays::new);
        let out = self.layout.get_or_insert_with(LayoutArrays::new);
        let reply = ffi::layout(sheet, space, out);
        Refusal::check(reply.number, reply.place)?;
        Ok(Layout::copied(out, reply))
    }

    /// As [`Table::read`].
    pub fn read(&mut self, lines: &[Line<'_>]) -> Result<Table, Refusal> {
        let sheet = self.given.sheet(lines)?;
        let space = self.reading.get_or_insert_with(ReadingArrays::new);
        let out = self.table.get_or_insert_with(TableArrays::new);
        let reply = ffi::table(sheet, space, out);
        Refusal::check(reply.number, reply.place)?;
        Ok(Table::copied(out, reply))
    }

    /// As [`cell`](crate::cell).
    pub fn cell<'a>(&mut self, lines: &[Line<'a>], k: usize) -> Result<Vec<Fragment<'a>>, Refusal> {
        let sheet = self.given.sheet(lines)?;
        let space = self.reading.get_or_insert_with(ReadingArrays::new);
        let out = self.cell.get_or_insert_with(CellArrays::new);
        let reply = ffi::cell(sheet, space, k, out);
        Refusal::check(reply.number, reply.place)?;
        Ok(fragments(lines, out, reply.lines))
    }

    /// As [`Table::redraw`].
    pub fn redraw(&mut self, table: &Table, origin: u16) -> Result<Drawing, Refusal> {
        let flat = self.flat.table(table)?;
        let space = self.drawing.get_or_insert_with(DrawingArrays::new);
        let out = self.drawn.get_or_insert_with(DrawnArrays::new);
        let reply = ffi::redraw(flat, origin.into(), space, out);
        Refusal::check(reply.number, reply.place)?;
        Ok(Drawing::copied(out, reply.lines, reply.bytes))
    }

    /// As [`redraw_sheet`](crate::redraw_sheet).
    pub fn redraw_sheet(
        &mut self,
        lines: &[Line<'_>],
        origin: u16,
    ) -> Result<Drawing, SheetRefusal> {
        let refused = |step: Step| move |refusal: Refusal| SheetRefusal { step, refusal };
        let sheet = self.given.sheet(lines).map_err(refused(Step::Reading))?;
        let reading = self.reading.get_or_insert_with(ReadingArrays::new);
        let between = self.table.get_or_insert_with(TableArrays::new);
        let drawing = self.drawing.get_or_insert_with(DrawingArrays::new);
        let out = self.drawn.get_or_insert_with(DrawnArrays::new);
        let reply = ffi::redraw_sheet(sheet, origin.into(), reading, between, drawing, out);
        let step = match reply.step {
            2 => Step::Redraw,
            _ => Step::Reading,
        };
        Refusal::check(reply.number, reply.place).map_err(refused(step))?;
        Ok(Drawing::copied(out, reply.lines, reply.bytes))
    }

    /// As [`positions`](crate::positions()).
    pub fn positions(&mut self, lines: &[SourceLine<'_>]) -> Result<Positions, Refusal> {
        let placed = self.given.placed(lines)?;
        let space = self.reading.get_or_insert_with(ReadingArrays::new);
        let out = self.positions.get_or_insert_with(PositionsArrays::new);
        let reply = ffi::positions(placed, space, out);
        Refusal::check(reply.number, reply.place)?;
        Ok(Positions::copied(out, reply))
    }

    /// As [`cell_position`](crate::cell_position).
    pub fn cell_position(
        &mut self,
        lines: &[SourceLine<'_>],
        k: usize,
    ) -> Result<Sourcepos, Refusal> {
        let placed = self.given.placed(lines)?;
        let space = self.reading.get_or_insert_with(ReadingArrays::new);
        let reply = ffi::cell_position(placed, space, k);
        Refusal::check(reply.number, reply.place)?;
        Ok(Sourcepos::of(reply))
    }

    /// As [`Table::to_html`].
    pub fn to_html(&mut self, table: &Table, widths: bool) -> Result<Page, Refusal> {
        self.to_html_with(table, widths, inner_of)
    }

    /// As [`Table::to_html_with`].
    pub fn to_html_with<B: AsRef<[u8]>>(
        &mut self,
        table: &Table,
        widths: bool,
        inner: impl FnMut(&TableCell) -> B,
    ) -> Result<Page, Refusal> {
        let flat = self.flat.page(table, inner)?;
        loop {
            let reply = ffi::page(flat, widths, &mut self.page);
            if reply.number == RefusalKind::OutputTooShort.number() {
                let twice = 2 * self.page.len();
                self.page.resize(twice.max(1_024), 0);
                continue;
            }
            Refusal::check(reply.number, reply.place)?;
            return Ok(Page(self.page[..reply.bytes].to_vec()));
        }
    }
}

impl fmt::Debug for Workspace {
    fn fmt(&self, f: &mut fmt::Formatter<'_>) -> fmt::Result {
        f.debug_struct("Workspace").finish_non_exhaustive()
    }
}

/// A drawing's lines as the archive takes them.
#[derive(Default)]
struct Given {
    lengths: Vec<u16>,
    columns: Vec<u16>,
    text: Vec<u8>,
    numbers: Vec<u32>,
    table_bytes: Vec<u32>,
}

impl Given {
    fn sheet(&mut self, lines: &[Line<'_>]) -> Result<Sheet<'_>, Refusal> {
        self.lengths.clear();
        self.columns.clear();
        self.text.clear();
        for line in lines {
            self.add(line)?;
        }
        Ok(self.lent())
    }

    fn placed(&mut self, lines: &[SourceLine<'_>]) -> Result<arrays::Placed<'_>, Refusal> {
        self.sheet(&[])?;
        self.numbers.clear();
        self.table_bytes.clear();
        for line in lines {
            self.add(&line.line)?;
            self.numbers.push(line.number);
            self.table_bytes.push(line.table_byte);
        }
        Ok(arrays::Placed {
            sheet: self.lent(),
            numbers: &self.numbers,
            table_bytes: &self.table_bytes,
        })
    }

    /// A 2 where the line's length fits no entry. 1 would come first, but there
    /// is a line.
    fn add(&mut self, line: &Line<'_>) -> Result<(), Refusal> {
        self.lengths
            .push(entry(line.text.len(), Refusal::LIMIT_PASSED)?);
        self.columns.push(line.column);
        self.text.extend_from_slice(line.text);
        Ok(())
    }

    fn lent(&self) -> Sheet<'_> {
        Sheet {
            lengths: &self.lengths,
            columns: &self.columns,
            text: &self.text,
        }
    }
}

/// A length as an entry of an array, where it fits.
fn entry(length: usize, otherwise: Refusal) -> Result<u16, Refusal> {
    u16::try_from(length).map_err(|_| otherwise)
}

/// A table as the archive takes it, for redraw or for the page.
#[derive(Default)]
struct Flat {
    columns: Vec<u16>,
    sections: Vec<u8>,
    cells: Vec<u16>,
    lengths: Vec<u16>,
    text: Vec<u8>,
}

impl Flat {
    fn table(&mut self, table: &Table) -> Result<arrays::Table<'_>, Refusal> {
        self.start(table);
        for cell in &table.cells {
            self.place(table, cell, cell.lines.len())?;
            for line in &cell.lines {
                self.lengths.push(entry(line.len(), too_long(table))?);
                self.text.extend_from_slice(line);
            }
        }
        Ok(arrays::Table {
            columns: &self.columns,
            sections: &self.sections,
            cells: &self.cells,
            lengths: &self.lengths,
            text: &self.text,
        })
    }

    fn page<B: AsRef<[u8]>>(
        &mut self,
        table: &Table,
        mut inner: impl FnMut(&TableCell) -> B,
    ) -> Result<arrays::Page<'_>, Refusal> {
        self.start(table);
        for cell in &table.cells {
            let inner = inner(cell);
            self.place(table, cell, inner.as_ref().len())?;
            self.text.extend_from_slice(inner.as_ref());
        }
        Ok(arrays::Page {
            columns: &self.columns,
            sections: &self.sections,
            cells: &self.cells,
            inner: &self.text,
        })
    }

    /// Columns and sections.
    fn start(&mut self, table: &Table) {
        self.columns.clear();
        self.sections.clear();
        self.cells.clear();
        self.lengths.clear();
        self.text.clear();
        let columns = table.columns.iter();
        self.columns
            .extend(columns.flat_map(|c| [c.alignment.code(), c.width]));
        self.sections
            .extend(table.sections.iter().map(|s| s.code()));
    }

    fn place(&mut self, table: &Table, cell: &TableCell, length: usize) -> Result<(), Refusal> {
        let length = entry(length, too_long(table))?;
        self.cells
            .extend([cell.row, cell.column, cell.colspan, cell.rowspan, length]);
        Ok(())
    }
}

/// The answer where a length of a table's cell fits no entry: a 2, after 1.
fn too_long(table: &Table) -> Refusal {
    if table.columns.is_empty() || table.sections.is_empty() {
        Refusal::EMPTY
    } else {
        Refusal::LIMIT_PASSED
    }
}
