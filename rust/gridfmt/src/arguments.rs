//! The command line: gofmt's flags.

use std::ffi::OsString;
use std::path::{Path, PathBuf};

pub const USAGE: &str = "\
usage: gridfmt [--check | -l | -d | -w [--force] | --html[=fragment]] [FILE..]
";

pub const HELP: &str = "\
gridfmt redraws grid tables: every text one blank from its border, every line as wide as
the next. A FILE holds one sheet. Without a FILE, or with -, standard input is read. The
result goes to standard output, messages go to standard error.

  -l               list the files that would change
  -d               print what would change, as a difference
  --check          say by the status, and on standard error, whether a file would change
  -w               write the result to the file; beside its name, print the numbers of
                   columns, rows and cells
  --force          with -w: write doubtful sheets too
  --html           print a page: a whole document, with a stylesheet
  --html=fragment  print the table's own part of the page
  -h, --help       print this

Status: 0 fine; 1 a file would change (--check, -l, -d); 2 a sheet was refused or is
doubtful, the usage was wrong (-w without a FILE, or with -), or input or output failed.

Around the sheet may stand, and are kept byte for byte: a byte order mark, line ends of
CR LF, a missing last line end, blank lines before and after, and one indent of blanks.

A doubt is a sheet that the rules accept, but that looks like a slip which moves a text
into another cell: a bar beside its corner, a missing bar, a gap in a border.

What is proved: reading a sheet, redrawing its table and making its page. A second run
changes no byte, and a sheet that was read is refused only where its redrawing passes a
limit (2), loses an alignment (10) or would split a cell (11). What is plain Rust:
arguments, files, what stands around a sheet, the difference, the messages and the doubts.
gridfmt never edits a drawn byte; before it replaces a file it reads the new one back by
the proved call, and compares the tables.
";

/// What is done with each sheet.
#[derive(Clone, Copy, PartialEq, Eq, Debug)]
pub enum Mode {
    /// The redrawing goes to standard output.
    Print,
    /// Only the status says whether it would change.
    Check,
    /// Files that would change are listed.
    List,
    /// What would change is printed.
    Difference,
    /// The file is replaced, a doubtful sheet too where forced.
    Write { force: bool },
    /// The page goes to standard output.
    Html { fragment: bool },
}

/// Where a sheet comes from.
#[derive(Clone, PartialEq, Eq, Debug)]
pub enum Source {
    StandardInput,
    File(PathBuf),
}

impl Source {
    /// Its name in messages, by gofmt's word where it has none.
    pub fn name(&self) -> &Path {
        match self {
            Source::StandardInput => Path::new("<standard input>"),
            Source::File(path) => path,
        }
    }
}

#[derive(PartialEq, Eq, Debug)]
pub enum Arguments {
    Help,
    Format { mode: Mode, sources: Vec<Source> },
}

/// The arguments' meaning, or what is wrong with them.
pub fn parse(arguments: impl Iterator<Item = OsString>) -> Result<Arguments, String> {
    let mut mode: Option<(String, Mode)> = None;
    let mut force = false;
    let mut sources = vec![];
    let mut options = true;
    for argument in arguments {
        let word = argument.to_str().unwrap_or("");
        match word {
            "--" if options => options = false,
            "-" => sources.push(Source::StandardInput),
            "-h" | "--help" | "-help" if options => return Ok(Arguments::Help),
            "--force" if options => force = true,
            _ if options && argument.as_encoded_bytes().starts_with(b"-") => {
                let Some(asked) = mode_of(word) else {
                    return Err(format!("{} is no option", argument.display()));
                };
                match &mode {
                    Some((other, _)) if other != word => {
                        return Err(format!("{other} and {word} go apart"));
                    }
                    _ => mode = Some((word.to_owned(), asked)),
                }
            }
            "" if argument.is_empty() => return Err("a FILE's name is empty".to_owned()),
            _ => sources.push(Source::File(argument.into())),
        }
    }
    let mode = mode.map_or(Mode::Print, |(_, mode)| mode);
    checked(mode, force, sources)
}

fn mode_of(word: &str) -> Option<Mode> {
    Some(match word {
        "--check" => Mode::Check,
        "-l" => Mode::List,
        "-d" => Mode::Difference,
        "-w" => Mode::Write { force: false },
        "--html" => Mode::Html { fragment: false },
        "--html=fragment" => Mode::Html { fragment: true },
        _ => return None,
    })
}

/// What can only be said when all arguments are known.
fn checked(mode: Mode, force: bool, mut sources: Vec<Source>) -> Result<Arguments, String> {
    let inputs = sources.iter().filter(|&s| *s == Source::StandardInput);
    let inputs = inputs.count();
    let mode = match mode {
        Mode::Write { .. } if sources.is_empty() => return Err("-w needs a FILE".to_owned()),
        Mode::Write { .. } if inputs > 0 => {
            return Err("-w can't write standard input; leave out -".to_owned());
        }
        Mode::Write { .. } => Mode::Write { force },
        _ if force => return Err("--force goes with -w".to_owned()),
        _ => mode,
    };
    if inputs > 1 {
        return Err("standard input can be read once; - stands twice".to_owned());
    }
    if sources.is_empty() {
        sources.push(Source::StandardInput);
    }
    Ok(Arguments::Format { mode, sources })
}

#[cfg(test)]
mod tests {
    use super::*;

    fn parsed(line: &str) -> Result<Arguments, String> {
        parse(line.split_whitespace().map(OsString::from))
    }

    fn format(mode: Mode, files: &[&str]) -> Result<Arguments, String> {
        let source = |&file: &&str| match file {
            "-" => Source::StandardInput,
            _ => Source::File(file.into()),
        };
        let sources = files.iter().map(source).collect();
        Ok(Arguments::Format { mode, sources })
    }

    #[test]
    fn each_option_has_its_meaning() {
        assert_eq!(parsed(""), format(Mode::Print, &["-"]));
        assert_eq!(parsed("-"), format(Mode::Print, &["-"]));
        assert_eq!(parsed("a - b"), format(Mode::Print, &["a", "-", "b"]));
        assert_eq!(parsed("--check a"), format(Mode::Check, &["a"]));
        assert_eq!(parsed("a -l"), format(Mode::List, &["a"]));
        assert_eq!(parsed("-d"), format(Mode::Difference, &["-"]));
        assert_eq!(parsed("-w a"), format(Mode::Write { force: false }, &["a"]));
        assert_eq!(
            parsed("--force -w a"),
            format(Mode::Write { force: true }, &["a"])
        );
        assert_eq!(
            parsed("--html"),
            format(Mode::Html { fragment: false }, &["-"])
        );
        assert_eq!(
            parsed("--html=fragment a"),
            format(Mode::Html { fragment: true }, &["a"])
        );
        assert_eq!(parsed("-d -d a"), format(Mode::Difference, &["a"]));
        assert_eq!(parsed("-l -- -d"), format(Mode::List, &["-d"]));
        assert_eq!(parsed("-l --help"), Ok(Arguments::Help));
    }

    #[test]
    fn wrong_usage_is_said_in_words() {
        for (line, said) in [
            ("-w", "-w needs a FILE"),
            ("-w -", "-w can't write standard input; leave out -"),
            ("-w a -", "-w can't write standard input; leave out -"),
            ("--force a", "--force goes with -w"),
            ("-l -w a", "-l and -w go apart"),
            (
                "--html --html=fragment a",
                "--html and --html=fragment go apart",
            ),
            ("-x a", "-x is no option"),
            ("--html=page a", "--html=page is no option"),
            ("- a -", "standard input can be read once; - stands twice"),
        ] {
            assert_eq!(parsed(line), Err(said.to_owned()), "{line}");
        }
        assert!(parse([OsString::new()].into_iter()).is_err());
    }

    #[test]
    fn the_help_names_every_option_of_the_usage() {
        for word in USAGE.split([' ', '[', ']', '|', '\n']) {
            if word.starts_with('-') {
                assert!(HELP.contains(&format!("  {word} ")), "{word}");
            }
        }
    }
}
