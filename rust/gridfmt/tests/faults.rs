//! What can go wrong with a file: at every moment the old or the new one is there, whole, and
//! nothing is left that blocks the next run.

mod common;

use std::collections::BTreeMap;
use std::fs;
use std::os::unix::fs::{FileTypeExt, MetadataExt, PermissionsExt, symlink};
use std::os::unix::process::ExitStatusExt;
use std::path::Path;
use std::process::{Child, Command, Stdio};
use std::time::{Duration, Instant};

use common::{Answer, Folder, GRIDFMT, example, installed, is_root};
use paper::make::Rng;

/// A sheet of 1,500 bytes and more, and its redrawing.
fn long_sheet() -> (String, String) {
    let drawn = |text: &dyn Fn(usize) -> String, rule: &str| {
        let rows: String = (0..40).map(|i| format!("{}\n{rule}\n", text(i))).collect();
        format!("{rule}\n{rows}")
    };
    let old = drawn(
        &|i| format!("|Part {i:02}|  {i:02}.50|"),
        "+-------+-------+",
    );
    let new = drawn(
        &|i| format!("| Part {i:02}|  {i:02}.50|"),
        "+--------+-------+",
    );
    (old, new)
}

fn text(path: &Path) -> String {
    fs::read_to_string(path).unwrap()
}

/// How often the program is killed: 200 times, or as `GRIDFMT_KILLS` says.
fn kills() -> usize {
    let asked = std::env::var("GRIDFMT_KILLS").ok();
    asked.map_or(200, |n| n.parse().expect("GRIDFMT_KILLS is a number"))
}

/// Files that are rewritten by a run which is killed.
const FILES: [&str; 3] = ["a.txt", "b.txt", "c.txt"];
const MODE: u32 = 0o640;

/// The folder with every file old again.
fn made_old(folder: &Folder, old: &str) {
    for name in FILES {
        let path = folder.path(name);
        if fs::read_to_string(&path).is_ok_and(|text| text == old) {
            continue;
        }
        fs::write(&path, old).unwrap();
        fs::set_permissions(&path, fs::Permissions::from_mode(MODE)).unwrap();
    }
}

fn rewriting(folder: &Folder) -> Child {
    let mut command = Command::new(GRIDFMT);
    command.arg("-w").args(FILES).current_dir(&folder.0);
    command
        .stdin(Stdio::null())
        .stdout(Stdio::null())
        .stderr(Stdio::null())
        .spawn()
        .unwrap()
}

/// How long a run takes that is not killed.
fn run_time(folder: &Folder, old: &str) -> Duration {
    made_old(folder, old);
    let start = Instant::now();
    common::reap(rewriting(folder));
    start.elapsed()
}

/// A run that is killed after some time; whether it had ended before.
fn killed_after(folder: &Folder, time: Duration) -> bool {
    let start = Instant::now();
    let mut child = rewriting(folder);
    while start.elapsed() < time {
        std::hint::spin_loop();
    }
    child.kill().unwrap();
    child.wait().unwrap().signal().is_none()
}

/// How many files are new; the others are old.
fn count_new(folder: &Folder, old: &str, new: &str) -> usize {
    let is_new = |name: &&&str| {
        let path = folder.path(name);
        let text = text(&path);
        assert!(text == old || text == new, "{name} is neither old nor new");
        assert_eq!(fs::metadata(&path).unwrap().mode() & 0o7777, MODE, "{name}");
        text == new
    };
    FILES.iter().filter(is_new).count()
}

#[test]
fn killed_at_random_moments() {
    let (old, new) = long_sheet();
    let folder = Folder::new("killed");
    let mut whole = run_time(&folder, &old);
    let mut rng = Rng::new(14);
    let (mut ended, mut news, mut between) = (0, 0, 0);
    for _ in 0..kills() {
        made_old(&folder, &old);
        let at_end = killed_after(&folder, whole.mul_f64(rng.below(1_000) as f64 / 1_000.0));
        // A disk is not always as fast: the time follows, so that one run in six is at its end.
        whole = whole.mul_f64(if at_end { 0.9 } else { 1.02 });
        let changed = count_new(&folder, &old, &new);
        ended += usize::from(at_end);
        news += changed;
        between += usize::from(0 < changed && changed < FILES.len());
    }
    let olds = kills() * FILES.len() - news;
    let litter = folder.names().len() - FILES.len();
    eprintln!(
        "{} kills, {ended} after the end: {olds} files old, {news} new, {between} runs between two \
         files, {litter} new files left",
        kills()
    );
    assert!(
        olds > kills() / 10 && news > kills() / 10,
        "the moments are not spread"
    );

    made_old(&folder, &old);
    common::reap(rewriting(&folder));
    assert_eq!(count_new(&folder, &old, &new), FILES.len(), "the next run");
    let own = |name: &String| FILES.contains(&&name[..]) || name.starts_with(".gridfmt-");
    assert!(folder.names().iter().all(own), "{:?}", folder.names());
}

/// A file size limit stands for a full disk: the new file is written in part.
#[test]
fn no_space_left() {
    let (old, new) = long_sheet();
    let folder = Folder::new("space");
    let path = folder.file("sheet.txt", &old);
    let limited = |rest: &str| {
        folder.shell(&format!(
            "{rest} ulimit -f 1; exec \"$GRIDFMT\" -w sheet.txt"
        ))
    };
    let refused = limited("trap '' XFSZ;");
    let said = "sheet.txt: error: writing the new file: File too large (os error 27); the file is as it was\n";
    refused.assert(2, "", said);
    assert_eq!(
        (text(&path), folder.names()),
        (old.clone(), vec!["sheet.txt".to_owned()])
    );

    // The limit's own signal ends the program, unless who started the test ignores it.
    assert_ne!(limited("").status, Some(0));
    assert_eq!(text(&path), old);
    folder
        .run(&["-w", "sheet.txt"])
        .assert(0, "sheet.txt: 2 columns, 40 rows, 80 cells\n", "");
    assert_eq!(text(&path), new);
}

#[test]
fn a_folder_that_is_read_only() {
    if is_root() {
        eprintln!("left out: root may write to a read-only folder");
        return;
    }
    let folder = Folder::new("read-only");
    let path = folder.file("sheet.txt", example("untidy.txt"));
    fs::set_permissions(&folder.0, fs::Permissions::from_mode(0o555)).unwrap();
    let answer = folder.run(&["-w", "sheet.txt"]);
    fs::set_permissions(&folder.0, fs::Permissions::from_mode(0o755)).unwrap();
    answer.assert_failed("making a new file in its folder: Permission denied");
    assert_eq!(text(&path), example("untidy.txt"));
}

#[test]
fn a_file_that_is_read_only() {
    if is_root() {
        eprintln!("left out: root may write to a read-only file");
        return;
    }
    let folder = Folder::new("protected");
    let path = folder.file("sheet.txt", example("untidy.txt"));
    fs::set_permissions(&path, fs::Permissions::from_mode(0o444)).unwrap();
    folder
        .run(&["-w", "sheet.txt"])
        .assert_failed("opening: Permission denied");
    assert_eq!(text(&path), example("untidy.txt"));
}

#[test]
fn the_owner_is_kept() {
    if !is_root() {
        eprintln!("left out: only root may give a file to another owner");
        return;
    }
    let folder = Folder::new("owner");
    let path = folder.file("sheet.txt", example("untidy.txt"));
    std::os::unix::fs::chown(&path, Some(12_345), Some(54_321)).unwrap();
    fs::set_permissions(&path, fs::Permissions::from_mode(0o4751)).unwrap();
    assert_eq!(folder.run(&["-w", "sheet.txt"]).status, Some(0));
    let kept = fs::metadata(&path).unwrap();
    assert_eq!(
        (kept.uid(), kept.gid(), kept.mode() & 0o7777),
        (12_345, 54_321, 0o4751)
    );
    assert_eq!(text(&path), example("untidy.out"));
}

/// The new file is made where the file is, and the link stays one.
#[test]
fn a_link_into_another_folder() {
    let (here, there) = (Folder::new("here"), Folder::new("there"));
    let path = there.file("sheet.txt", example("untidy.txt"));
    symlink(&path, here.path("link.txt")).unwrap();
    let size = "link.txt: 4 columns, 8 rows, 24 cells\n";
    here.run(&["-w", "link.txt"]).assert(0, size, "");
    assert_eq!(text(&path), example("untidy.out"));
    assert_eq!(fs::read_link(here.path("link.txt")).unwrap(), path);
    assert_eq!(
        (here.names(), there.names()),
        (vec!["link.txt".into()], vec!["sheet.txt".into()])
    );
    symlink("nowhere.txt", here.path("dangling.txt")).unwrap();
    here.run(&["-w", "dangling.txt"])
        .assert_failed("dangling.txt: error: opening: No such file");
}

#[test]
fn a_file_with_two_names() {
    let folder = Folder::new("names");
    let path = folder.file("a.txt", example("untidy.txt"));
    fs::hard_link(&path, folder.path("b.txt")).unwrap();
    folder
        .run(&["-w", "a.txt"])
        .assert_failed("it has 2 names (hard links)");
    assert_eq!(text(&path), example("untidy.txt"));
    assert_eq!(fs::metadata(&path).unwrap().nlink(), 2);
    folder.run(&["-l", "a.txt"]).assert(1, "a.txt\n", "");
}

#[test]
fn a_pipe_a_folder_and_a_device_are_refused_at_once() {
    let folder = Folder::new("kinds");
    folder
        .shell("mkfifo pipe && mkdir folder && ln -s pipe link")
        .assert(0, "", "");
    for option in ["-w", "--check", "--html"] {
        for (name, said) in [
            ("pipe", "it is a pipe"),
            ("link", "it is a pipe"),
            ("folder", "it is a folder"),
            ("/dev/null", "it is a device"),
            ("/dev/zero", "it is a device"),
        ] {
            folder
                .run(&[option, name])
                .assert_failed(&format!("{name}: error: opening: {said}"));
        }
    }
    assert!(
        fs::metadata(folder.path("pipe"))
            .unwrap()
            .file_type()
            .is_fifo()
    );
    assert_eq!(folder.names(), ["folder", "link", "pipe"]);
    // A pipe as standard input is read.
    let piped = folder.shell("echo '+-+\n+-+' > pipe & \"$GRIDFMT\" < pipe; wait");
    piped.assert(0, "+-+\n| |\n+-+\n", "");
}

#[test]
fn an_input_without_an_end_or_of_zeros() {
    let folder = Folder::new("endless");
    folder
        .shell("\"$GRIDFMT\" < /dev/zero")
        .assert_failed("more than a mebibyte");
    folder
        .shell("yes '| a |' | \"$GRIDFMT\" -l")
        .assert_failed("more than a mebibyte");
}

#[test]
fn an_output_that_is_full_or_closed() {
    let folder = Folder::new("output");
    let path = folder.file("sheet.txt", example("untidy.txt"));
    let full = "gridfmt: standard output: No space left on device (os error 28)\n";
    for options in ["", "-l", "-d", "--html", "--html=fragment", "--help"] {
        let line = format!("\"$GRIDFMT\" {options} sheet.txt > /dev/full");
        folder.shell(&line).assert(2, "", full);
    }
    // A reader that is gone. Nothing panics where messages can't be printed either.
    let line = "{ sleep 0.2; \"$GRIDFMT\" sheet.txt; echo $? >&2; } | true";
    folder.shell(line).assert(
        0,
        "",
        "gridfmt: standard output: Broken pipe (os error 32)\n2\n",
    );
    for closed in ["2> /dev/full", "2>&-"] {
        folder
            .shell(&format!("\"$GRIDFMT\" none.txt {closed}"))
            .assert(2, "", "");
    }
    assert_eq!(text(&path), example("untidy.txt"));

    // The file is written before its size is printed, and it alone.
    folder
        .shell("\"$GRIDFMT\" -w sheet.txt > /dev/full")
        .assert(2, "", full);
    assert_eq!(text(&path), example("untidy.out"));
    folder.file("sheet.txt", example("untidy.txt"));
    let closed = folder.shell("\"$GRIDFMT\" -w sheet.txt none.txt <&- >&- 2>&-");
    closed.assert(2, "", "");
    assert_eq!(text(&path), example("untidy.out"));
    assert_eq!(folder.names(), ["sheet.txt"]);
}

/// The program with one of its system calls tampered with, by `strace`.
fn tampered(folder: &Folder, call: &str) -> Answer {
    let mut strace = Command::new("strace");
    strace
        .args(["-qqq", "-o", "/dev/null", "-e"])
        .arg(format!("inject={call}"));
    strace
        .arg("-e")
        .arg(format!("trace={}", call.split(':').next().unwrap()));
    strace
        .args([GRIDFMT, "-w", "sheet.txt"])
        .current_dir(&folder.0);
    Answer::of(&mut strace, "")
}

fn strace_works() -> bool {
    let works = installed("strace")
        && Command::new("strace")
            .args(["-qqq", "-o", "/dev/null", "true"])
            .status()
            .is_ok_and(|s| s.success());
    if !works {
        eprintln!("left out: strace is not installed, or may not trace");
    }
    works
}

/// Calls that fail, and the step that is named. The fourth is of a disk that says it has written
/// 5 bytes, and has not.
const FAILURES: [(&str, &str); 6] = [
    (
        "write:error=ENOSPC:when=1",
        "writing the new file: No space left on device (os error 28)",
    ),
    (
        "fchmod:error=EPERM",
        "keeping the mode: Operation not permitted (os error 1)",
    ),
    (
        "fsync:error=EIO:when=1",
        "syncing the new file: Input/output error (os error 5)",
    ),
    (
        "write:retval=5:when=1",
        "reading the new file back: it has other bytes than were written",
    ),
    (
        "lseek:error=EIO",
        "reading the new file back: Input/output error (os error 5)",
    ),
    (
        "rename:error=EACCES",
        "renaming the new file: Permission denied (os error 13)",
    ),
];

#[test]
fn each_step_that_fails_leaves_the_old_file_and_is_named() {
    if !strace_works() {
        return;
    }
    for (call, step) in FAILURES {
        let folder = Folder::new("step");
        let path = folder.file("sheet.txt", example("untidy.txt"));
        let said = format!("sheet.txt: error: {step}; the file is as it was\n");
        tampered(&folder, call).assert(2, "", &said);
        assert_eq!(text(&path), example("untidy.txt"), "{call}");
        assert_eq!(folder.names(), ["sheet.txt"], "{call}");
    }
    // After the renaming the new file is there.
    let folder = Folder::new("step");
    let path = folder.file("sheet.txt", example("untidy.txt"));
    let answer = tampered(&folder, "fsync:error=EIO:when=2");
    answer.assert_failed("sheet.txt: error: syncing its folder: Input/output error (os error 5); the new file is in its place");
    assert_eq!(text(&path), example("untidy.out"));
}

/// The system calls of a run, by name, and how often each is made.
fn system_calls() -> BTreeMap<String, usize> {
    let folder = Folder::new("calls");
    folder.file("sheet.txt", example("untidy.txt"));
    folder.shell("strace -qqq -o calls \"$GRIDFMT\" -w sheet.txt > said");
    let mut calls = BTreeMap::new();
    for line in text(&folder.path("calls")).lines() {
        let name = line.split('(').next().unwrap_or("");
        if name.starts_with(|c: char| c.is_ascii_lowercase()) && name != "execve" {
            *calls.entry(name.to_owned()).or_insert(0) += 1;
        }
    }
    assert!(
        calls.len() > 10 && calls["fsync"] == 2 && calls["rename"] == 1,
        "{calls:?}"
    );
    calls
}

/// Runs with each system call tampered with in turn, and hands each answer with its folder on.
/// How many runs left the old file, and how many the new one.
fn at_each_call(how: &str, look: impl Fn(&str, &Folder, &Answer)) -> [usize; 2] {
    let (old, new) = (example("untidy.txt"), example("untidy.out"));
    let mut left = [0, 0];
    for (name, count) in system_calls() {
        for when in 1..=count {
            let folder = Folder::new("call");
            let path = folder.file("sheet.txt", &old);
            let call = format!("{name}:{how}:when={when}");
            let answer = tampered(&folder, &call);
            let there = text(&path);
            assert!(there == old || there == new, "{call}: {there}");
            left[usize::from(there == new)] += 1;
            look(&call, &folder, &answer);
        }
    }
    left
}

#[test]
fn killed_at_each_system_call() {
    if !strace_works() {
        return;
    }
    let [olds, news] = at_each_call("signal=KILL", |call, folder, answer| {
        assert_ne!(answer.status, Some(0), "{call}");
        assert_eq!(folder.run(&["-w", "sheet.txt"]).status, Some(0), "{call}");
        assert_eq!(
            text(&folder.path("sheet.txt")),
            example("untidy.out"),
            "{call}"
        );
    });
    eprintln!(
        "{} kills, at each system call: {olds} files old, {news} new",
        olds + news
    );
    assert!(olds > 10 && news > 2, "{olds}, {news}");
}

/// No call that fails brings a panic, a status of 0 with the old file, or litter. Calls for
/// memory are left out: without memory a program ends as if killed.
#[test]
fn each_system_call_fails_in_turn() {
    if !strace_works() {
        return;
    }
    let [olds, news] = at_each_call("error=EIO", |call, folder, answer| {
        let name = call.split(':').next().unwrap();
        if ["brk", "mmap", "mprotect", "munmap"].contains(&name) {
            return;
        }
        assert!(!answer.err.contains("panicked"), "{call}: {answer:?}");
        assert_eq!(folder.names(), ["sheet.txt"], "{call}");
        if answer.status == Some(0) {
            assert_eq!(
                text(&folder.path("sheet.txt")),
                example("untidy.out"),
                "{call}"
            );
        }
    });
    eprintln!(
        "{} failures, at each system call: {olds} files old, {news} new",
        olds + news
    );
}

/// Two at once, each with a name of its own for the new file.
#[test]
fn two_runs_at_once() {
    let (old, new) = long_sheet();
    let folder = Folder::new("at-once");
    for _ in 0..10 {
        made_old(&folder, &old);
        let children = [rewriting(&folder), rewriting(&folder)];
        children.into_iter().for_each(common::reap);
        for name in FILES {
            assert_eq!(text(&folder.path(name)), new);
        }
        assert_eq!(folder.names(), FILES);
    }
}

/// Many files, on a terminal that `script` makes: the line is there, and is taken away.
#[test]
fn progress_on_a_terminal() {
    if !installed("script") {
        eprintln!("left out: script is not installed");
        return;
    }
    let folder = Folder::new("progress");
    let (old, _) = long_sheet();
    folder.file("sheet.txt", old);
    let files = "sheet.txt ".repeat(20_000);
    folder.file(
        "many.sh",
        format!("\"$GRIDFMT\" --check {files} > quiet 2> errors\n"),
    );
    folder.file(
        "shown.sh",
        format!("stty -opost 2> /dev/null; \"$GRIDFMT\" -l {files} > quiet\n"),
    );
    let mut script = Command::new("script");
    script
        .args(["-qec", "sh shown.sh", "/dev/null"])
        .env("GRIDFMT", GRIDFMT);
    let shown = Answer::of(script.current_dir(&folder.0), "");
    assert_eq!(shown.status, Some(1), "{shown:?}");
    if shown.out.is_empty() {
        eprintln!("left out: {} files take less than a second", 20_000);
        return;
    }
    assert!(shown.out.contains(" of 20000 files"), "{shown:?}");
    assert!(shown.out.ends_with("\r\u{1b}[K"), "{shown:?}");
    let quiet = folder.shell("sh many.sh; cat errors | tr -d -c '\\033'");
    assert_eq!(quiet.out, "");
}
