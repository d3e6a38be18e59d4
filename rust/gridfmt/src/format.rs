//! From a file's bytes to its redrawing's, over the proved calls.

use gridtable::{Line, Step, Table, Workspace};

use crate::doubts::doubts;
use crate::frame::{self, Framed};
use crate::messages::{self, Message};

/// A sheet that was read and redrawn.
pub struct Formatted {
    /// The file's new bytes.
    pub bytes: Vec<u8>,
    pub table: Table,
    pub doubts: Vec<Message>,
}

/// A sheet's page, its table's own part.
pub struct Page {
    pub bytes: Vec<u8>,
    pub doubts: Vec<Message>,
}

/// Takes the frame off, reads the sheet, redraws its table and puts the frame back.
pub fn format(workspace: &mut Workspace, bytes: &[u8]) -> Result<Formatted, Message> {
    let framed = frame::take_off(bytes)?;
    let lines = framed.sheet();
    let table = read(workspace, &framed, &lines)?;
    let origin = framed.frame.origin().try_into().unwrap_or(u16::MAX);
    match workspace.redraw(&table, origin) {
        Ok(drawing) => Ok(Formatted {
            bytes: framed.frame.around(&drawing),
            doubts: look(workspace, &framed, &lines),
            table,
        }),
        Err(refusal) => {
            let step = Step::Redraw;
            Err(messages::refused(
                workspace,
                &framed,
                step,
                refusal,
                Some(&table),
            ))
        }
    }
}

/// The page of a file's sheet, with the shares of its columns.
pub fn page(workspace: &mut Workspace, bytes: &[u8]) -> Result<Page, Message> {
    let framed = frame::take_off(bytes)?;
    let lines = framed.sheet();
    let table = read(workspace, &framed, &lines)?;
    let page = workspace.to_html(&table, true);
    let page = page.map_err(|refusal| messages::page_refused(&framed, refusal))?;
    Ok(Page {
        bytes: page.into_bytes(),
        doubts: look(workspace, &framed, &lines),
    })
}

/// Whether a file's bytes read as a table: its columns, alignments, sections and cells. Widths
/// are the drawing's own.
pub fn reads_as(workspace: &mut Workspace, bytes: &[u8], table: &Table) -> Result<(), String> {
    let other = || "it does not read as the table that was drawn".to_owned();
    let framed = frame::take_off(bytes).map_err(|_| other())?;
    let read = workspace.read(&framed.sheet()).map_err(|_| other())?;
    let aligned = |table: &Table| {
        table
            .columns
            .iter()
            .map(|c| c.alignment)
            .collect::<Vec<_>>()
    };
    let same = aligned(&read) == aligned(table)
        && read.sections == table.sections
        && read.cells == table.cells;
    if same { Ok(()) } else { Err(other()) }
}

fn read(
    workspace: &mut Workspace,
    framed: &Framed<'_>,
    lines: &[Line<'_>],
) -> Result<Table, Message> {
    let table = workspace.read(lines);
    table.map_err(|refusal| messages::refused(workspace, framed, Step::Reading, refusal, None))
}

fn look(workspace: &mut Workspace, framed: &Framed<'_>, lines: &[Line<'_>]) -> Vec<Message> {
    let layout = workspace.layout(lines);
    layout.map_or(vec![], |layout| doubts(framed, lines, &layout))
}

#[cfg(test)]
mod tests {
    use super::*;
    use paper::make::{Rng, seeking, sheets};
    use paper::sheet::Sheet;
    use paper::{cut, redraw};

    /// So many are redrawn, and some more refused.
    const SHEETS: usize = 10_000;

    /// What is put around lines, to be taken off again.
    struct Around {
        mark: &'static str,
        blank: usize,
        end: &'static str,
        ended: bool,
        indent: usize,
    }

    impl Around {
        fn new(rng: &mut Rng, indent: usize) -> Around {
            Around {
                mark: rng.pick(&["", "", "", "\u{FEFF}"]),
                blank: rng.below(3),
                end: rng.pick(&["\n", "\n", "\r\n"]),
                ended: !rng.once_in(4),
                indent,
            }
        }

        fn bytes(&self, sheet: &Sheet) -> Vec<u8> {
            let blank = self.end.repeat(self.blank);
            let mut bytes = format!("{}{blank}", self.mark).into_bytes();
            for r in 0..sheet.lines {
                bytes.extend(vec![b' '; self.indent]);
                bytes.extend(sheet.line(r));
                bytes.extend(self.end.as_bytes());
            }
            if self.ended {
                bytes.extend(blank.as_bytes());
            } else {
                bytes.truncate(bytes.len() - self.end.len());
            }
            bytes
        }
    }

    /// A sheet with all lines at one column, at times damaged.
    fn sheet(rng: &mut Rng) -> Sheet {
        let mut lines = match rng.below(4) {
            0 => {
                let column = rng.below(8);
                seeking::sheet(rng, column)
            }
            _ => sheets::painted(rng),
        };
        if rng.once_in(4) {
            sheets::damage(rng, &mut lines);
        }
        let column = lines.first().map_or(0, |line| line.1);
        lines.iter_mut().for_each(|line| line.1 = column);
        Sheet::of(&lines)
    }

    /// Whether the file's lines are the sheet's: no line end in a line, no blank line at an end.
    fn is_plain(sheet: &Sheet) -> bool {
        let lines: Vec<&[u8]> = (0..sheet.lines).map(|r| sheet.line(r)).collect();
        let blank = |line: &&[u8]| line.iter().all(|b| matches!(b, b' ' | b'\t'));
        let ends = [lines.first(), lines.last()];
        !lines.concat().iter().any(|b| matches!(b, b'\n' | b'\r'))
            && ends
                .iter()
                .all(|line| line.is_some_and(|line| !blank(line)))
    }

    /// The character above a message's caret.
    fn pointed_at(said: &str) -> Option<char> {
        let lines: Vec<&str> = said.lines().collect();
        let caret = lines.get(2)?.find('^')?;
        crate::screen::slots(lines[1].as_bytes(), 0)
            .get(caret)
            .copied()
    }

    /// One sheet in a frame: redrawn as the second reading draws it, and then as itself; or
    /// refused with its number. Whether it was redrawn.
    fn twice(seed: u64, workspace: &mut Workspace, sheet: &Sheet, around: &Around) -> bool {
        let expected = cut::read_table(sheet)
            .and_then(|table| redraw::redraw(&table, around.indent, redraw::Space::ENOUGH));
        match (format(workspace, &around.bytes(sheet)), expected) {
            (Err(message), Err(refusal)) => {
                let said = message.render("f");
                let number = format!("error[{}]: ", refusal.number);
                assert!(
                    said.contains(&number) || said.contains("error: "),
                    "{seed}: {said}"
                );
                if said.contains("error[6]") || said.contains("error[11]") {
                    let shown = pointed_at(&said);
                    assert!(matches!(shown, Some('+' | '|')), "{seed}: {said}");
                }
                false
            }
            (Ok(first), Ok(drawn)) => {
                assert_eq!(first.bytes, around.bytes(&drawn), "seed {seed}");
                assert_eq!(reads_as(workspace, &first.bytes, &first.table), Ok(()));
                let second = format(workspace, &first.bytes);
                let second = second.unwrap_or_else(|m| panic!("{seed}: {}", m.render("f")));
                assert_eq!(second.bytes, first.bytes, "seed {seed}");
                true
            }
            (answer, expected) => {
                let answer = answer.map(|_| ()).map_err(|message| message.render("f"));
                panic!("seed {seed}: {answer:?}, {:?}", expected.map(|_| ()));
            }
        }
    }

    #[test]
    fn random_sheets_twice() {
        let mut workspace = Workspace::new();
        let (mut redrawn, mut refused) = (0, 0);
        for seed in 0.. {
            let mut rng = Rng::new(seed);
            let sheet = sheet(&mut rng);
            if !is_plain(&sheet) {
                continue;
            }
            let around = Around::new(&mut rng, sheet.columns[0]);
            if twice(seed, &mut workspace, &sheet, &around) {
                redrawn += 1;
            } else {
                refused += 1;
            }
            if redrawn == SHEETS {
                break;
            }
        }
        assert!(refused > SHEETS / 10, "{refused}");
    }

    /// Reading back finds a change of a text, an alignment, a section and a border.
    #[test]
    fn another_table_is_told_from_the_one_drawn() {
        let mut workspace = Workspace::new();
        let sheet = "+---+---+\n| a | b |\n+:==+===+\n| c | d |\n+---+---+\n";
        let table = format(&mut workspace, sheet.as_bytes()).map(|f| f.table);
        let table = table.unwrap_or_else(|m| panic!("{m:?}"));
        let mut reads = |sheet: &str| reads_as(&mut workspace, sheet.as_bytes(), &table).is_ok();
        assert!(reads(sheet));
        assert!(reads(&sheet.replace('\n', "\r\n")));
        assert!(!reads(&sheet.replace('d', "e")));
        assert!(!reads(&sheet.replace(':', "=")));
        assert!(!reads(&sheet.replace(['=', ':'], "-")));
        assert!(!reads(&sheet.replace("| d", "  d")));
        assert!(!reads(""));
    }
}
