//! The given grid_table/mod.rs, its layout.rs with it, and public doors to
//! what is private in them.
#![allow(dead_code)]

include!(concat!(env!("COMRAK_DIR"), "/src/parser/grid_table/mod.rs"));

pub use doors::*;

mod doors {
    use super::layout::{self, Line};
    use super::{CellLineEnd, Pending, PendingLine};
    use crate::nodes::{
        Arena, Ast, GridTableColumn, GridTableSection, Node, NodeGridTableCell, NodeValue,
        Sourcepos,
    };
    use crate::options::Options;
    use crate::parser::Parser;
    use crate::parser::fragments::Fragment;
    use crate::parser::inlines::Delimiters;

    pub struct ReadRow {
        pub section: GridTableSection,
        pub top: usize,
        pub bottom: usize,
        pub cells: Vec<ReadCell>,
    }

    pub struct ReadCell {
        pub value: NodeGridTableCell,
        pub left: usize,
        pub content: Vec<(usize, usize)>,
    }

    pub fn trim_end(text: &str) -> &str {
        layout::trim_end(text)
    }

    pub fn is_rule(text: &str, fill: u8) -> bool {
        layout::is_rule(text, fill)
    }

    /// `layout` over lines given as text and column.
    pub fn layout(lines: &[(&str, usize)]) -> Option<(Vec<GridTableColumn>, Vec<ReadRow>)> {
        let lines: Vec<Line<'_>> = lines
            .iter()
            .map(|&(text, column)| Line { text, column })
            .collect();
        let read = layout::layout(&lines)?;
        let rows = read.rows.into_iter().map(|row| ReadRow {
            section: row.section,
            top: row.top,
            bottom: row.bottom,
            cells: row.cells.into_iter().map(read_cell).collect(),
        });
        Some((read.columns, rows.collect()))
    }

    fn read_cell(cell: layout::Cell) -> ReadCell {
        ReadCell {
            value: cell.value,
            left: cell.left,
            content: cell.content.iter().map(|r| (r.start, r.end)).collect(),
        }
    }

    /// Lines as `layout` takes them, so that the call alone can be timed.
    pub struct ReadyLines<'t>(Vec<Line<'t>>);

    /// What `layout` answered, so that dropping it can be left out.
    pub struct Untouched(#[expect(dead_code)] layout::Layout);

    impl<'t> ReadyLines<'t> {
        pub fn new(lines: &[(&'t str, usize)]) -> ReadyLines<'t> {
            let lines = lines.iter().map(|&(text, column)| Line { text, column });
            ReadyLines(lines.collect())
        }

        pub fn layout(&self) -> Option<Untouched> {
            layout::layout(&self.0).map(Untouched)
        }
    }

    /// What `build_grid_table` has of a drawing before it makes nodes: the
    /// layout, and for each cell its fragments, collected as it collects them.
    pub struct ReadTable<'t>(#[expect(dead_code)] layout::Layout, Vec<Vec<Fragment<'t>>>);

    impl ReadTable<'_> {
        /// How many cells, and how many bytes their fragments have.
        pub fn size(&self) -> (usize, usize) {
            let bytes = |cell: &Vec<Fragment<'_>>| cell.iter().map(|f| f.text.len()).sum::<usize>();
            (self.1.len(), self.1.iter().map(bytes).sum())
        }
    }

    /// A drawing as the parser has it once its last line is known.
    pub struct ReadyTable<'p, 'a>(&'p Pending<'a>);

    impl<'p> ReadyTable<'p, '_> {
        pub fn read(&self) -> Option<ReadTable<'p>> {
            let pending = self.0;
            let read = pending.layout()?;
            let mut cells = Vec::with_capacity(read.rows.iter().map(|r| r.cells.len()).sum());
            for row in &read.rows {
                for cell in &row.cells {
                    let lines = cell.content.iter().zip(&pending.lines[row.top + 1..]);
                    let cut = lines.map(|(range, line)| {
                        super::cell_fragment(pending, line, range.clone(), cell.left)
                    });
                    cells.push(cut.collect());
                }
            }
            Some(ReadTable(read, cells))
        }
    }

    /// Hands over a drawing, its table bytes all 0.
    pub fn with_ready_table<T>(
        texts: &[(&str, usize)],
        f: impl FnOnce(ReadyTable<'_, '_>) -> T,
    ) -> T {
        let arena = Arena::new();
        let node = arena.alloc(NodeValue::Document.into());
        let lines: Vec<PlacedLine<'_>> = texts
            .iter()
            .enumerate()
            .map(|(line, &(text, column))| PlacedLine {
                text,
                line,
                byte: 0,
                column,
            })
            .collect();
        let pending = pending(node, &lines);
        f(ReadyTable(&pending))
    }

    /// A line of a drawing with its number, the byte where the table starts
    /// on it, and its column.
    pub struct PlacedLine<'t> {
        pub text: &'t str,
        pub line: usize,
        pub byte: usize,
        pub column: usize,
    }

    fn pending<'a>(node: Node<'a>, lines: &[PlacedLine<'_>]) -> Pending<'a> {
        let mut text = String::new();
        let mut kept = vec![];
        for line in lines {
            let start = text.len();
            text.push_str(line.text);
            kept.push(PendingLine {
                start,
                end: text.len(),
                eol: text.len(),
                line: line.line,
                byte: line.byte,
                column: line.column,
                table_byte: line.byte,
                table_column: line.column,
            });
        }
        Pending {
            node,
            indent: 0,
            text,
            lines: kept,
            layout: None,
        }
    }

    /// A cut line: its text, line, byte and column.
    pub type CutLine = (String, usize, usize, usize);

    /// `cell_fragment` for one line and one range of it.
    pub fn cut(line: PlacedLine<'_>, range: (usize, usize), left: usize) -> CutLine {
        let arena = Arena::new();
        let node = arena.alloc(NodeValue::Document.into());
        let pending = pending(node, &[line]);
        let f = super::cell_fragment(&pending, &pending.lines[0], range.0..range.1, left);
        (f.text.to_string(), f.line, f.byte, f.column)
    }

    /// What `build_grid_table` makes of a drawing that `layout` accepts.
    pub struct Built {
        pub table: Sourcepos,
        pub rows: Vec<Sourcepos>,
        pub cells: Vec<(Sourcepos, Vec<CutLine>)>,
    }

    pub fn build(lines: &[PlacedLine<'_>]) -> Option<Built> {
        let arena = Arena::new();
        let options = Options::default();
        let root = arena.alloc(NodeValue::Document.into());
        let table = arena.alloc(NodeValue::Document.into());
        let mut parser = Parser::new(&arena, root, &options, None, &Delimiters);
        let pending = pending(table, lines);
        let read = pending.layout()?;
        let mut ast = Ast::new(NodeValue::Document, (0, 0).into());
        parser.build_grid_table(table, &mut ast, &pending, read);

        let mut built = Built {
            table: ast.sourcepos,
            rows: vec![],
            cells: vec![],
        };
        for row in table.children() {
            built.rows.push(row.data().sourcepos);
            for cell in row.children() {
                let cut = cell.children().map(cut_line).collect();
                built.cells.push((cell.data().sourcepos, cut));
            }
        }
        Some(built)
    }

    fn cut_line(node: Node<'_>) -> CutLine {
        let ast = node.data();
        let NodeValue::CutLine(text, column) = &ast.value else {
            unreachable!()
        };
        let start = ast.sourcepos.start;
        (text.clone(), start.line, start.column, *column)
    }

    /// Hands over a parser that holds these ends (line, start, eol), and the
    /// document: a break of each of the kinds at each asked line and column.
    fn with_breaks<T>(
        ends: &[(usize, usize, usize)],
        asked: &[(usize, usize)],
        kinds: &[fn() -> NodeValue],
        f: impl FnOnce(&mut Parser<'_, '_, '_, '_>, Node<'_>) -> T,
    ) -> T {
        let arena = Arena::new();
        let options = Options::default();
        let root = arena.alloc(NodeValue::Document.into());
        for &(line, column) in asked {
            for kind in kinds {
                let ast = Ast::new_with_sourcepos(kind(), (line, column, 0, 0).into());
                root.append(arena.alloc(ast.into()));
            }
        }
        let mut parser = Parser::new(&arena, root, &options, None, &Delimiters);
        for &(line, start, eol) in ends {
            parser.cell_line_ends.push(CellLineEnd { line, start, eol });
        }
        f(&mut parser, root)
    }

    /// `place_cell_line_ends`: the eol found at each asked line and column, by
    /// a soft break there and by a hard one.
    pub fn find_line_ends(
        ends: &[(usize, usize, usize)],
        asked: &[(usize, usize)],
    ) -> Vec<[Option<usize>; 2]> {
        let kinds: [fn() -> NodeValue; 2] = [|| NodeValue::SoftBreak, || NodeValue::LineBreak];
        with_breaks(ends, asked, &kinds, |parser, root| {
            parser.place_cell_line_ends();
            let places: Vec<Sourcepos> = root.children().map(|n| n.data().sourcepos).collect();
            let (pairs, _) = places.as_chunks::<2>();
            // An end that is found sets the break's own end, which was line 0.
            let found = |[soft, hard]: &[Sourcepos; 2]| {
                [
                    (soft.end.line != 0).then_some(soft.start.column),
                    (hard.end.line != 0).then_some(hard.end.column + 1),
                ]
            };
            pairs.iter().map(found).collect()
        })
    }

    /// Hands over `place_cell_line_ends` with hard breaks at the asked lines and
    /// columns, which finds the same each time, since it leaves their starts.
    pub fn with_line_ends<T>(
        ends: &[(usize, usize, usize)],
        asked: &[(usize, usize)],
        f: impl FnOnce(&mut dyn FnMut()) -> T,
    ) -> T {
        with_breaks(ends, asked, &[|| NodeValue::LineBreak], |parser, _| {
            f(&mut || parser.place_cell_line_ends())
        })
    }

    /// `CellLineEnd::remap` over fragments given as line and byte.
    pub fn remap(
        end: (usize, usize, usize),
        fragments: &[(usize, usize)],
    ) -> (usize, usize, usize) {
        let fragments: Vec<Fragment<'_>> = fragments
            .iter()
            .map(|&(line, byte)| Fragment {
                text: "",
                eol: "",
                line,
                byte,
                column: 0,
            })
            .collect();
        let (line, start, eol) = end;
        let end = CellLineEnd { line, start, eol }.remap(&fragments);
        (end.line, end.start, end.eol)
    }
}
