//! What the tests share: the program, its answer, and folders of their own.
#![allow(dead_code)]

use std::ffi::OsStr;
use std::fs;
use std::io::Write;
use std::path::{Path, PathBuf};
use std::process::{Child, Command, Output, Stdio};
use std::sync::atomic::{AtomicUsize, Ordering};
use std::time::{Duration, Instant};

pub const GRIDFMT: &str = env!("CARGO_BIN_EXE_gridfmt");

/// The example sheets.
pub const EXAMPLES: [&str; 6] = [
    "list.txt",
    "spans.txt",
    "parts.txt",
    "aligned.txt",
    "japanese.txt",
    "untidy.txt",
];

pub fn example(name: &str) -> String {
    let path = format!("{}/../../examples/{name}", env!("CARGO_MANIFEST_DIR"));
    fs::read_to_string(&path).unwrap_or_else(|e| panic!("{path}: {e}"))
}

/// An example's redrawing: itself, or its `.out` file.
pub fn redrawn(name: &str) -> String {
    match name {
        "untidy.txt" => example("untidy.out"),
        _ => example(name),
    }
}

/// A folder of its own, removed at the end.
pub struct Folder(pub PathBuf);

impl Folder {
    pub fn new(name: &str) -> Folder {
        static NUMBER: AtomicUsize = AtomicUsize::new(0);
        let number = NUMBER.fetch_add(1, Ordering::Relaxed);
        let own = format!("{name}-{}-{number}", std::process::id());
        let path = Path::new(env!("CARGO_TARGET_TMPDIR")).join(own);
        fs::create_dir_all(&path).unwrap();
        Folder(path)
    }

    pub fn path(&self, name: &str) -> PathBuf {
        self.0.join(name)
    }

    pub fn file(&self, name: &str, text: impl AsRef<[u8]>) -> PathBuf {
        let path = self.path(name);
        fs::write(&path, text).unwrap();
        path
    }

    /// The names in the folder, in order.
    pub fn names(&self) -> Vec<String> {
        let entries = fs::read_dir(&self.0).unwrap();
        let mut names: Vec<String> = entries
            .map(|entry| entry.unwrap().file_name().into_string().unwrap())
            .collect();
        names.sort();
        names
    }

    /// The program on arguments, in the folder.
    pub fn run<S: AsRef<OsStr>>(&self, arguments: &[S]) -> Answer {
        Answer::of(
            Command::new(GRIDFMT).args(arguments).current_dir(&self.0),
            "",
        )
    }

    /// A line for the shell, in the folder; `$GRIDFMT` is the program.
    pub fn shell(&self, line: &str) -> Answer {
        let mut shell = Command::new("sh");
        shell
            .args(["-c", line])
            .env("GRIDFMT", GRIDFMT)
            .current_dir(&self.0);
        Answer::of(&mut shell, "")
    }
}

impl Drop for Folder {
    fn drop(&mut self) {
        let _ = fs::remove_dir_all(&self.0);
    }
}

/// What a program did.
#[derive(Debug)]
pub struct Answer {
    /// Its status; none where a signal ended it.
    pub status: Option<i32>,
    pub out: String,
    pub err: String,
}

impl Answer {
    /// Runs a command with a standard input; one that takes longer than a minute hangs.
    pub fn of(command: &mut Command, input: &str) -> Answer {
        let piped = command
            .stdin(Stdio::piped())
            .stdout(Stdio::piped())
            .stderr(Stdio::piped());
        let mut child = piped.spawn().unwrap();
        // A program that reads nothing may be gone already.
        let _ = child.stdin.take().unwrap().write_all(input.as_bytes());
        let end = Instant::now() + Duration::from_secs(60);
        let waited = std::thread::spawn(move || child.wait_with_output().unwrap());
        while !waited.is_finished() {
            assert!(Instant::now() < end, "it hangs: {command:?}");
            std::thread::sleep(Duration::from_millis(1));
        }
        Answer::from(waited.join().unwrap())
    }

    pub fn assert(&self, status: i32, out: &str, err: &str) {
        let expected = (Some(status), out, err);
        assert_eq!((self.status, &self.out[..], &self.err[..]), expected);
    }

    /// That it failed with status 2, and said this.
    pub fn assert_failed(&self, said: &str) {
        assert_eq!(self.status, Some(2), "{self:?}");
        assert!(self.err.contains(said), "{self:?}");
    }
}

impl From<Output> for Answer {
    fn from(output: Output) -> Answer {
        Answer {
            status: output.status.code(),
            out: String::from_utf8(output.stdout).unwrap(),
            err: String::from_utf8(output.stderr).unwrap(),
        }
    }
}

/// The program with a standard input.
pub fn filter(arguments: &[&str], input: &str) -> Answer {
    Answer::of(Command::new(GRIDFMT).args(arguments), input)
}

/// Waits until a child has ended.
pub fn reap(mut child: Child) {
    child.wait().unwrap();
}

/// Whether the tests run as root, who may do everything.
pub fn is_root() -> bool {
    use std::os::unix::fs::MetadataExt;
    let folder = Folder::new("root");
    fs::metadata(&folder.0).unwrap().uid() == 0
}

/// Whether a program is installed.
pub fn installed(program: &str) -> bool {
    let path = std::env::var_os("PATH").unwrap_or_default();
    std::env::split_paths(&path).any(|folder| folder.join(program).is_file())
}
