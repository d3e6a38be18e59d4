//! A line on standard error that says how far a long run is, where that is a terminal.

use std::io::Write;
use std::time::Duration;

/// How long a run is silent.
const SILENT: Duration = Duration::from_secs(1);
/// How often the line is printed anew.
const EACH: Duration = Duration::from_millis(100);
/// To the line's start, and the line cleared.
const CLEAR: &str = "\r\x1b[K";

/// The progress of a run over so many files.
pub struct Progress {
    files: usize,
    terminal: bool,
    printed: Option<Duration>,
    shown: bool,
}

impl Progress {
    pub fn new(files: usize, terminal: bool) -> Progress {
        Progress {
            files,
            terminal,
            printed: None,
            shown: false,
        }
    }

    /// So many files are done, so long after the start. Standard error may be closed; that
    /// stops nothing.
    pub fn done(&mut self, files: usize, elapsed: Duration, err: &mut impl Write) {
        let due = self.printed.is_none_or(|last| elapsed >= last + EACH);
        if !self.terminal || self.files < 2 || elapsed < SILENT || !due {
            return;
        }
        let _ = write!(err, "{CLEAR}{files} of {} files", self.files);
        let _ = err.flush();
        self.printed = Some(elapsed);
        self.shown = true;
    }

    /// Takes the line away, before something else is printed and at the end. The next one is
    /// printed at once.
    pub fn clear(&mut self, err: &mut impl Write) {
        if std::mem::take(&mut self.shown) {
            self.printed = None;
            let _ = err.write_all(CLEAR.as_bytes());
            let _ = err.flush();
        }
    }
}

#[cfg(test)]
mod tests {
    use super::*;

    /// What is printed where a file is done each 60 milliseconds.
    fn printed(files: usize, terminal: bool) -> String {
        let mut err = vec![];
        let mut progress = Progress::new(files, terminal);
        for done in 1..=files {
            progress.done(done, Duration::from_millis(60) * done as u32, &mut err);
        }
        progress.clear(&mut err);
        progress.clear(&mut err);
        String::from_utf8(err).unwrap()
    }

    #[test]
    fn it_is_printed_after_a_second_and_taken_away() {
        let at = |files: usize| format!("{CLEAR}{files} of 20 files");
        assert_eq!(printed(20, true), format!("{}{}{CLEAR}", at(17), at(19)));
    }

    #[test]
    fn it_is_printed_again_after_something_else() {
        let mut err = vec![];
        let mut progress = Progress::new(3, true);
        for done in 1..=2 {
            progress.done(done, Duration::from_secs(2), &mut err);
            progress.clear(&mut err);
        }
        let said = String::from_utf8(err).unwrap();
        assert_eq!(said.matches(" of 3 files").count(), 2, "{said:?}");
    }

    #[test]
    fn it_is_not_printed_in_a_second_nor_to_a_file() {
        assert_eq!(printed(16, true), "");
        assert_eq!(printed(100, false), "");
        let mut err = vec![];
        Progress::new(1, true).done(1, Duration::from_secs(5), &mut err);
        assert!(err.is_empty());
    }
}
