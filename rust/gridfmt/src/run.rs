//! From file to file: what is printed where, and the status.

use std::ffi::OsString;
use std::io::{self, IsTerminal, Stderr, Stdout, Write};
use std::os::unix::ffi::OsStrExt;
use std::process::ExitCode;
use std::time::Instant;

use gridtable::{Table, Workspace};

use crate::arguments::{self, Arguments, Mode, Source};
use crate::difference;
use crate::files::{self, Failure, Original};
use crate::format::{self, Formatted};
use crate::html;
use crate::messages::Message;
use crate::progress::Progress;
use crate::screen;

/// The most doubts of a file that are printed.
const DOUBTS: usize = 5;

#[derive(Clone, Copy, PartialEq, Eq, PartialOrd, Ord, Debug)]
pub enum Status {
    Fine,
    WouldChange,
    Failed,
}

impl From<Status> for ExitCode {
    fn from(status: Status) -> ExitCode {
        ExitCode::from(status as u8)
    }
}

/// The program on its arguments.
pub fn run(arguments: impl Iterator<Item = OsString>) -> Status {
    let failed = |words: &str| {
        let _ = write!(io::stderr(), "gridfmt: {words}");
        Status::Failed
    };
    let done = match arguments::parse(arguments) {
        Err(wrong) => return failed(&format!("{wrong}\n{}", arguments::USAGE)),
        Ok(Arguments::Help) => help(),
        Ok(Arguments::Format { mode, sources }) => Run::new(mode, sources.len()).over(&sources),
    };
    done.unwrap_or_else(|error| failed(&format!("standard output: {error}\n")))
}

fn help() -> io::Result<Status> {
    let mut out = io::stdout();
    write!(out, "{}\n{}", arguments::USAGE, arguments::HELP)?;
    out.flush()?;
    Ok(Status::Fine)
}

/// Why a file came to nothing.
enum Trouble {
    Refused(Message),
    Failed(Failure),
    Output(io::Error),
}

impl From<Message> for Trouble {
    fn from(message: Message) -> Trouble {
        Trouble::Refused(message)
    }
}

impl From<Failure> for Trouble {
    fn from(failure: Failure) -> Trouble {
        Trouble::Failed(failure)
    }
}

impl From<io::Error> for Trouble {
    fn from(error: io::Error) -> Trouble {
        Trouble::Output(error)
    }
}

struct Run {
    mode: Mode,
    workspace: Workspace,
    out: Stdout,
    err: Stderr,
    progress: Progress,
    pages: Vec<Vec<u8>>,
}

impl Run {
    fn new(mode: Mode, files: usize) -> Run {
        Run {
            mode,
            workspace: Workspace::new(),
            out: io::stdout(),
            err: io::stderr(),
            progress: Progress::new(files, io::stderr().is_terminal()),
            pages: vec![],
        }
    }

    /// All files, each with its own message; a failed output ends it.
    fn over(mut self, sources: &[Source]) -> io::Result<Status> {
        let start = Instant::now();
        let mut status = Status::Fine;
        let mut titled = vec![];
        for (done, source) in sources.iter().enumerate() {
            self.progress.done(done, start.elapsed(), &mut self.err);
            let pages = self.pages.len();
            status = status.max(self.one(source)?);
            if self.pages.len() > pages {
                titled.push(source);
            }
        }
        self.progress.clear(&mut self.err);
        match self.mode {
            Mode::Html { fragment: true } => self.print(&self.pages.concat())?,
            Mode::Html { fragment: false } if !self.pages.is_empty() => {
                let title = html::title(titled.into_iter());
                self.print(&html::document(&title, &self.pages))?;
            }
            _ => {}
        }
        Ok(status)
    }

    fn one(&mut self, source: &Source) -> io::Result<Status> {
        let name = screen::printed(source.name().as_os_str().as_bytes());
        let done = match (self.mode, source) {
            (Mode::Write { force }, Source::File(path)) => Original::read(path)
                .map_err(Trouble::from)
                .and_then(|old| self.write(&name, &old, force)),
            _ => self.show(&name, source),
        };
        let message = match done {
            Ok(status) => return Ok(status),
            Err(Trouble::Output(error)) => return Err(error),
            Err(Trouble::Refused(message)) => message.render(&name),
            Err(Trouble::Failed(failure)) => {
                let after = match self.mode {
                    Mode::Write { .. } if failure.replaced => {
                        "; the new file is in its place, but may be lost with the power"
                    }
                    Mode::Write { .. } => "; the file is as it was",
                    _ => "",
                };
                format!("{name}: error: {failure}{after}\n")
            }
        };
        self.say(&message);
        Ok(Status::Failed)
    }

    /// Every mode but `-w`.
    fn show(&mut self, name: &str, source: &Source) -> Result<Status, Trouble> {
        let bytes = match source {
            Source::StandardInput => files::read_standard_input()?,
            Source::File(path) => files::read(path)?,
        };
        if let Mode::Html { .. } = self.mode {
            let page = format::page(&mut self.workspace, &bytes)?;
            self.pages.push(page.bytes);
            return Ok(self.doubt(name, &page.doubts, ""));
        }
        let new = format::format(&mut self.workspace, &bytes)?;
        let changed = new.bytes != bytes;
        let path = source.name().as_os_str().as_bytes();
        match self.mode {
            Mode::Print => self.print(&new.bytes)?,
            Mode::List if changed => self.print(&[path, b"\n"].concat())?,
            Mode::Difference if changed => {
                self.print(&difference::unified(path, &bytes, &new.bytes))?;
            }
            Mode::Check if changed => self.say(&format!("{name}: would change\n")),
            _ => {}
        }
        let doubted = self.doubt(name, &new.doubts, "");
        Ok(match self.mode {
            Mode::Check | Mode::List | Mode::Difference if changed => {
                doubted.max(Status::WouldChange)
            }
            _ => doubted,
        })
    }

    /// Replaces a file where it changes, and prints the size of its table.
    fn write(&mut self, name: &str, old: &Original, force: bool) -> Result<Status, Trouble> {
        let Formatted {
            bytes,
            table,
            doubts,
        } = format::format(&mut self.workspace, &old.bytes)?;
        if force {
            self.doubt(name, &doubts, "; --force is given");
        } else if !doubts.is_empty() {
            return Ok(self.doubt(name, &doubts, "; not written (--force writes it)"));
        }
        if bytes == old.bytes {
            return Ok(Status::Fine);
        }
        let workspace = &mut self.workspace;
        old.replace(&bytes, |back| format::reads_as(workspace, back, &table))?;
        self.print(format!("{name}: {}\n", size(&table)).as_bytes())?;
        Ok(Status::Fine)
    }

    /// Prints doubts, and that they are no more than that.
    fn doubt(&mut self, name: &str, doubts: &[Message], then: &str) -> Status {
        if doubts.is_empty() {
            return Status::Fine;
        }
        let mut text: String = doubts
            .iter()
            .take(DOUBTS)
            .map(|doubt| doubt.render(name))
            .collect();
        let count = match doubts.len() {
            1 => "1 doubt".to_owned(),
            n if n > DOUBTS => format!("{n} doubts, of which {DOUBTS} are shown"),
            n => format!("{n} doubts"),
        };
        text += &format!("{name}: {count}; doubts are not part of the proof{then}\n");
        self.say(&text);
        Status::Failed
    }

    /// Prints to standard output, at once.
    fn print(&mut self, bytes: &[u8]) -> io::Result<()> {
        if self.out.is_terminal() {
            self.progress.clear(&mut self.err);
        }
        self.out.write_all(bytes)?;
        self.out.flush()
    }

    /// Prints to standard error, which may be closed; that stops nothing.
    fn say(&mut self, text: &str) {
        self.progress.clear(&mut self.err);
        let _ = self.err.write_all(text.as_bytes());
    }
}

/// The size of a table in words.
fn size(table: &Table) -> String {
    let counted = |n: usize, one: &str| match n {
        1 => format!("1 {one}"),
        _ => format!("{n} {one}s"),
    };
    let columns = counted(table.columns.len(), "column");
    let rows = counted(table.sections.len(), "row");
    let cells = counted(table.cells.len(), "cell");
    format!("{columns}, {rows}, {cells}")
}
