//! `compare sheets` and `compare tables`: inputs with their answers, a word
//! and numbers a line. README.md has the form.

use std::io::{self, Read, Write};

use crate::given;
use crate::make::{self, Rng, edge};
use crate::paper::cut::{self, Line};
use crate::paper::layout::{self, Layout, Space};
use crate::paper::page::{self, PageTable};
use crate::paper::sheet::Sheet;
use crate::paper::table::Table;
use crate::paper::{Refusal, listing, redraw};

/// Bytes as lower-case hexadecimal pairs, `-` for none.
pub fn hex(bytes: &[u8]) -> String {
    if bytes.is_empty() {
        return "-".to_string();
    }
    bytes.iter().map(|b| format!("{b:02x}")).collect()
}

fn row(word: &str, numbers: &[usize]) -> String {
    let mut out = word.to_string();
    for number in numbers {
        out += &format!(" {number}");
    }
    out + "\n"
}

fn refused(refusal: Refusal) -> String {
    row("refused", &[refusal.number, refusal.place])
}

/// The listing of the drawing on standard input, an accepted one from the
/// Rust's layout.
pub fn listing() -> io::Result<()> {
    let mut input = vec![];
    io::stdin().lock().read_to_end(&mut input)?;
    let sheet = listing::sheet_of(&input);
    let listed = match layout::read(&sheet, Space::ENOUGH) {
        Ok(read) => {
            let rust = given::layout(&sheet).unwrap();
            assert_eq!(rust, read);
            listing::listed(&rust)
        }
        Err(refusal) => refused(refusal),
    };
    io::stdout().lock().write_all(listed.as_bytes())
}

/// The cells of the drawing on standard input, an accepted one from the
/// Rust's layout and cut lines.
pub fn cells() -> io::Result<()> {
    let mut input = vec![];
    io::stdin().lock().read_to_end(&mut input)?;
    let sheet = listing::sheet_of(&input);
    let listed = match cut::read_table(&sheet) {
        Ok(read) => {
            let rust = given::table(&sheet).unwrap();
            assert_eq!(rust, read);
            table_cells(&rust)
        }
        Err(refusal) => refused(refusal).into_bytes(),
    };
    io::stdout().lock().write_all(&listed)
}

fn table_cells(table: &Table) -> Vec<u8> {
    let mut out = row("table", &table.sizes()).into_bytes();
    let mut lines = table.all_lines().into_iter();
    for p in &table.places {
        out.extend(row("cell", &[p.row, p.column, p.colspan, p.rowspan, p.lines]).bytes());
        for line in lines.by_ref().take(p.lines) {
            out.extend([b"  ", line, b"\n"].concat());
        }
    }
    out
}

/// The redrawing at origin 0 of the drawing on standard input, an accepted one
/// from the Rust's layout, cut lines and drawing.
pub fn redraw() -> io::Result<()> {
    let mut input = vec![];
    io::stdin().lock().read_to_end(&mut input)?;
    let sheet = listing::sheet_of(&input);
    let redrawn =
        cut::read_table(&sheet).and_then(|table| redraw::redraw(&table, 0, redraw::Space::ENOUGH));
    let printed = match redrawn {
        Ok(drawn) => {
            let rust = given::draw(&given::table(&sheet).unwrap(), 0);
            assert_eq!(rust, drawn);
            (0..rust.lines)
                .flat_map(|r| [rust.line(r), b"\n"].concat())
                .collect()
        }
        Err(refusal) => refused(refusal).into_bytes(),
    };
    io::stdout().lock().write_all(&printed)
}

/// The page of the drawing on standard input, its cells' lines escaped; an
/// accepted one from the Rust's layout, cut lines and page.
pub fn page(widths: bool) -> io::Result<()> {
    let mut input = vec![];
    io::stdin().lock().read_to_end(&mut input)?;
    let sheet = listing::sheet_of(&input);
    let paged =
        cut::read_table(&sheet).and_then(|table| page::page(&escaped(&table), widths, usize::MAX));
    let printed = match paged {
        Ok(page) => {
            let rust = given::page(&escaped(&given::table(&sheet).unwrap()), widths);
            assert_eq!(rust, page);
            rust
        }
        Err(refusal) => refused(refusal).into_bytes(),
    };
    io::stdout().lock().write_all(&printed)
}

/// A table for the page, its cells' lines escaped and parted by line breaks.
pub fn escaped(table: &Table) -> PageTable {
    let mut lines = table.all_lines().into_iter();
    let inner: Vec<Vec<u8>> = (table.places.iter())
        .map(|p| {
            let own: Vec<Vec<u8>> = lines.by_ref().take(p.lines).map(escape).collect();
            own.join(&b"<br />\n"[..])
        })
        .collect();
    let lengths: Vec<usize> = inner.iter().map(Vec::len).collect();
    PageTable {
        columns: table.columns,
        rows: table.rows,
        cells: table.cells,
        bytes: lengths.iter().sum(),
        alignments: table.alignments.clone(),
        widths: table.widths.clone(),
        sections: table.sections.clone(),
        places: table.places.clone(),
        lengths,
        inner: inner.concat(),
    }
}

fn escape(line: &[u8]) -> Vec<u8> {
    let name = |b: &u8| match b {
        b'&' => b"&amp;".to_vec(),
        b'<' => b"&lt;".to_vec(),
        b'>' => b"&gt;".to_vec(),
        _ => vec![*b],
    };
    line.iter().flat_map(name).collect()
}

pub fn sheets(seed: u64, n: usize) -> io::Result<()> {
    let mut out = io::stdout().lock();
    let mut rng = Rng::new(seed);
    let mut fixed = edge::sheets().into_iter();
    for _ in 0..n {
        let sheet = match fixed.next() {
            Some((sheet, _)) => sheet,
            None => make::sheets::sheet(&mut rng),
        };
        out.write_all(sheet_case(&mut rng, &sheet).as_bytes())?;
    }
    Ok(())
}

fn sheet_case(rng: &mut Rng, sheet: &Sheet) -> String {
    let mut space = Space {
        columns: 127,
        rows: 127,
        cells: 1_024,
        inner: 16_384,
    };
    if rng.once_in(16) {
        let short = rng.below(3);
        match rng.below(4) {
            0 => space.columns = short,
            1 => space.rows = short,
            2 => space.cells = short,
            _ => space.inner = short,
        }
    }
    let mut out = row("sheet", &[sheet.lines, sheet.bytes]);
    out += &row("lengths", &sheet.lengths);
    out += &row("columns", &sheet.columns);
    out += &format!("text {}\n", hex(&sheet.text));
    let spaces = [space.columns, space.rows, space.cells, space.inner];
    out += &row("space", &spaces);
    match layout::read(sheet, space) {
        Ok(read) => {
            out += &listing::listed(&read);
            out += &cut_lines(sheet, &read);
        }
        Err(refusal) => out += &refused(refusal),
    }
    out + "end\n"
}

/// Each cell's left column and number of lines in the table read; each inner
/// line's range, and its cut line's range, byte and column at table byte 0.
fn cut_lines(sheet: &Sheet, read: &Layout) -> String {
    let mut out = String::new();
    let table = cut::table_of(sheet, read);
    for (i, cell) in read.cells.iter().enumerate() {
        out += &row("left", &[i, cell.left, table.places[i].lines]);
        let top = read.rows[cell.row].top;
        for (k, &range) in cell.inner.iter().enumerate() {
            let r = top + 1 + k;
            let line = Line {
                text: sheet.line(r),
                line: r,
                byte: 0,
                column: sheet.columns[r],
            };
            let f = cut::cut(&line, range, cell.left).unwrap();
            let numbers = [r, range.0, range.1, f.start, f.end, f.byte, f.column];
            out += &row("cut", &numbers);
        }
    }
    out
}

pub fn tables(seed: u64, n: usize) -> io::Result<()> {
    let mut out = io::stdout().lock();
    let mut rng = Rng::new(seed);
    let mut fixed = edge::tables().into_iter();
    for _ in 0..n {
        let (table, origin) = match fixed.next() {
            Some((table, _)) => (table, 0),
            None => make::tables::table(&mut rng),
        };
        out.write_all(table_case(&mut rng, &table, origin).as_bytes())?;
    }
    Ok(())
}

fn table_case(rng: &mut Rng, table: &Table, origin: usize) -> String {
    let mut space = redraw::Space {
        lines: 128,
        bytes: 32_768,
    };
    if rng.once_in(16) {
        if rng.once_in(2) {
            space.lines = rng.between(0, 5);
        } else {
            space.bytes = rng.between(0, 50);
        }
    }
    let mut out = row("table", &table.sizes());
    out += &row("origin", &[origin]);
    out += &row("alignments", &table.alignments);
    out += &row("widths", &table.widths);
    out += &row("sections", &table.sections);
    for p in &table.places {
        out += &row("cell", &[p.row, p.column, p.colspan, p.rowspan, p.lines]);
    }
    out += &row("lengths", &table.lengths);
    out += &format!("text {}\n", hex(&table.text));
    out += &row("space", &[space.lines, space.bytes]);
    match redraw::redraw(table, origin, space) {
        Ok(drawn) => {
            out += &row("drawn", &[drawn.lines, drawn.bytes]);
            out += &row("drawnlengths", &drawn.lengths);
            out += &format!("drawntext {}\n", hex(&drawn.text));
        }
        Err(refusal) => out += &refused(refusal),
    }
    out + "end\n"
}
