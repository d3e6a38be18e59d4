//! The command as a dealer has it: every mode, its output and its status.

mod common;

use std::fs;
use std::os::unix::fs::MetadataExt;

use common::{EXAMPLES, Folder, example, filter, installed, redrawn};

const BAD: &str = "+---+---+\n| a | b|\n+---+---+\n";
const BAD_SAID: &str = ":2:8: error[5]: this line is 8 columns wide, the first line 9\n    | a | b|\n           ^\n    help: it lacks 1 column\n";
const DOUBTFUL: &str = "+---+---+\n| a  | b|\n+---+---+\n";

#[test]
fn every_example_twice() {
    for name in EXAMPLES {
        let (text, expected) = (example(name), redrawn(name));
        let first = filter(&[], &text);
        first.assert(0, &expected, "");
        filter(&["-"], &first.out).assert(0, &expected, "");

        let folder = Folder::new("twice");
        let path = folder.file(name, &text);
        let size = match name {
            "untidy.txt" => "untidy.txt: 4 columns, 8 rows, 24 cells\n",
            _ => "",
        };
        folder.run(&["-w", name]).assert(0, size, "");
        assert_eq!(fs::read_to_string(&path).unwrap(), expected, "{name}");
        let before = fs::metadata(&path).unwrap();
        folder.run(&["-w", name]).assert(0, "", "");
        let after = fs::metadata(&path).unwrap();
        let stamp = |m: &fs::Metadata| {
            (
                m.ino(),
                m.mtime(),
                m.mtime_nsec(),
                m.ctime(),
                m.ctime_nsec(),
            )
        };
        assert_eq!(stamp(&before), stamp(&after), "{name} is touched");
        assert_eq!(folder.names(), [name]);
    }
}

#[test]
fn no_example_is_doubted() {
    for name in EXAMPLES {
        for text in [example(name), redrawn(name)] {
            assert_eq!(filter(&[], &text).err, "", "{name}");
        }
    }
}

#[test]
fn each_mode_says_what_would_change() {
    let folder = Folder::new("modes");
    folder.file("tidy.txt", example("list.txt"));
    folder.file("untidy.txt", example("untidy.txt"));
    let both = ["tidy.txt", "untidy.txt"];
    let with = |option: &'static str| [&[option][..], &both].concat();
    folder
        .run(&both)
        .assert(0, &(example("list.txt") + &example("untidy.out")), "");
    folder.run(&with("-l")).assert(1, "untidy.txt\n", "");
    folder
        .run(&with("--check"))
        .assert(1, "", "untidy.txt: would change\n");
    for option in ["-l", "-d", "--check"] {
        folder.run(&[option, "tidy.txt"]).assert(0, "", "");
    }
    let difference = folder.run(&with("-d"));
    assert_eq!((difference.status, &difference.err[..]), (Some(1), ""));
    let start =
        "diff untidy.txt.orig untidy.txt\n--- untidy.txt.orig\n+++ untidy.txt\n@@ -1,18 +1,18 @@\n";
    assert!(difference.out.starts_with(start), "{}", difference.out);
    assert_eq!(folder.names(), ["tidy.txt", "untidy.txt"]);
    assert_eq!(
        fs::read_to_string(folder.path("untidy.txt")).unwrap(),
        example("untidy.txt")
    );
}

#[test]
fn the_difference_is_one_for_patch() {
    if !installed("patch") {
        eprintln!("left out: patch is not installed");
        return;
    }
    for text in [example("untidy.txt"), "\n +--+\n |a |\n +--+".to_owned()] {
        let folder = Folder::new("patch");
        folder.file("sheet.txt", &text);
        let expected = filter(&[], &text).out;
        let patched = folder.shell("\"$GRIDFMT\" -d sheet.txt | patch -s sheet.txt");
        patched.assert(0, "", "");
        assert_eq!(
            fs::read_to_string(folder.path("sheet.txt")).unwrap(),
            expected
        );
    }
}

#[test]
fn each_file_has_its_message_and_the_others_go_on() {
    let folder = Folder::new("several");
    folder.file("bad.txt", BAD);
    folder.file("doubtful.txt", DOUBTFUL);
    folder.file("untidy.txt", example("untidy.txt"));
    let answer = folder.run(&["-w", "none.txt", "bad.txt", "doubtful.txt", "untidy.txt"]);
    assert_eq!(answer.status, Some(2));
    assert_eq!(answer.out, "untidy.txt: 4 columns, 8 rows, 24 cells\n");
    let said = [
        "none.txt: error: opening: No such file or directory (os error 2); the file is as it was\n",
        &format!("bad.txt{BAD_SAID}"),
        "doubtful.txt:2:6: doubt: this bar is text of a cell, not a border: the corner next to it \
         is at column 5\n    | a  | b|\n         ^\n",
        "doubtful.txt: 1 doubt; doubts are not part of the proof; not written (--force writes it)\n",
    ];
    assert_eq!(answer.err, said.concat());
    assert_eq!(fs::read_to_string(folder.path("bad.txt")).unwrap(), BAD);
    assert_eq!(
        fs::read_to_string(folder.path("doubtful.txt")).unwrap(),
        DOUBTFUL
    );
    assert_eq!(
        fs::read_to_string(folder.path("untidy.txt")).unwrap(),
        example("untidy.out")
    );
}

#[test]
fn a_doubtful_sheet_is_written_where_forced() {
    let folder = Folder::new("forced");
    let path = folder.file("sheet.txt", DOUBTFUL);
    let answer = folder.run(&["-w", "--force", "sheet.txt"]);
    assert_eq!(
        (answer.status, &answer.out[..]),
        (Some(0), "sheet.txt: 1 column, 1 row, 1 cell\n")
    );
    assert!(
        answer
            .err
            .contains("doubts are not part of the proof; --force is given")
    );
    assert_eq!(
        fs::read_to_string(path).unwrap(),
        "+-------+\n| a  | b|\n+-------+\n"
    );
}

/// Five slips that the rules accept: bars beside their corners, a bar missing on one line, a bar
/// missing on the only line, a gap in a border, a corner missing.
const SLIPS: [[&str; 5]; 5] = [
    [
        "+------+------+",
        "| Belt | 18.50|",
        "+------+------+",
        "| Pen   |12.00|",
        "+------+------+",
    ],
    [
        "+------+------+",
        "| Belt | 18.50|",
        "| 2 m    each |",
        "| long | 1 pc |",
        "+------+------+",
    ],
    [
        "+------+------+",
        "| Belt   18.50|",
        "+------+------+",
        "| Pen  | 12.00|",
        "+------+------+",
    ],
    [
        "+------+------+",
        "| Belt | 18.50|",
        "+------+-- ---+",
        "| Pen  | 12.00|",
        "+------+------+",
    ],
    [
        "+------+------+",
        "| Belt | 18.50|",
        "+-------------+",
        "| Pen  | 12.00|",
        "+------+------+",
    ],
];

#[test]
fn five_slips_are_doubted_and_not_written() {
    for slip in SLIPS {
        let folder = Folder::new("slip");
        let text = slip.join("\n") + "\n";
        let path = folder.file("sheet.txt", &text);
        let answer = folder.run(&["-w", "sheet.txt"]);
        answer.assert_failed(": doubt: ");
        answer.assert_failed("doubts are not part of the proof; not written (--force writes it)\n");
        assert_eq!(answer.out, "", "{text}");
        assert_eq!(fs::read_to_string(&path).unwrap(), text);
        assert_eq!(folder.run(&["-w", "--force", "sheet.txt"]).status, Some(0));
    }
}

/// A doubtful sheet is a 2 in every mode; what was asked for is printed all the same.
#[test]
fn a_doubt_is_said_in_every_mode() {
    for options in [&[][..], &["-l"], &["-d"], &["--check"], &["--html"]] {
        let answer = filter(options, DOUBTFUL);
        answer.assert_failed("<standard input>:2:6: doubt: ");
        assert_eq!(answer.out.is_empty(), options == ["--check"], "{options:?}");
    }
}

#[test]
fn a_refused_sheet_is_a_2_and_prints_nothing() {
    for options in [
        &[][..],
        &["-l"],
        &["-d"],
        &["--check"],
        &["--html"],
        &["--html=fragment"],
    ] {
        filter(options, BAD).assert(2, "", &format!("<standard input>{BAD_SAID}"));
    }
}

#[test]
fn the_frame_stays() {
    let sheet = example("untidy.txt").replace('\n', "\r\n");
    let expected = example("untidy.out").replace('\n', "\r\n");
    let framed = |sheet: &str| format!("\u{FEFF}\r\n \t\r\n{}\r\n ", sheet.trim_end());
    filter(&[], &framed(&sheet)).assert(0, &framed(&expected), "");
    filter(&[], "+-+\r\n+-+\n").assert_failed("this line ends in LF, the lines before it in CR LF");
}

#[test]
fn wrong_usage_is_a_2() {
    let folder = Folder::new("usage");
    let path = folder.file("a", example("untidy.txt"));
    for (arguments, said) in [
        (&["-w"][..], "-w needs a FILE"),
        (&["-w", "-"], "-w can't write standard input"),
        (&["-w", "a", "-"], "-w can't write standard input"),
        (&["-w", "-l", "a"], "-w and -l go apart"),
        (&["--force", "a"], "--force goes with -w"),
        (&["--wide", "a"], "--wide is no option"),
    ] {
        let answer = folder.run(arguments);
        answer.assert_failed(&format!("gridfmt: {said}"));
        answer.assert_failed("usage: gridfmt [--check");
        assert_eq!(answer.out, "");
    }
    assert_eq!(fs::read_to_string(path).unwrap(), example("untidy.txt"));
}

#[test]
fn help_says_what_is_proved() {
    let answer = filter(&["--help"], "");
    assert_eq!((answer.status, &answer.err[..]), (Some(0), ""));
    for part in [
        "usage: gridfmt",
        "What is proved:",
        "What is plain Rust:",
        "Status: 0 fine; 1",
    ] {
        assert!(answer.out.contains(part), "{part}");
    }
}

/// README's way from a sheet to its redrawing and back.
#[test]
fn a_sheet_goes_out_and_comes_back() {
    if !installed("patch") {
        eprintln!("left out: patch is not installed");
        return;
    }
    let untidy = example("untidy.txt");
    for text in [
        untidy.clone(),
        untidy.replace('\n', "\r\n"),
        format!("\u{FEFF}\n{}", untidy.trim_end()),
    ] {
        let folder = Folder::new("back");
        folder.file("sheet.txt", &text);
        let size = "sheet.txt: 4 columns, 8 rows, 24 cells\n";
        folder
            .shell("\"$GRIDFMT\" -d sheet.txt > sheet.diff")
            .assert(1, "", "");
        folder
            .shell("\"$GRIDFMT\" -w sheet.txt")
            .assert(0, size, "");
        folder
            .shell("\"$GRIDFMT\" --check sheet.txt")
            .assert(0, "", "");
        folder
            .shell("patch -s -R sheet.txt sheet.diff")
            .assert(0, "", "");
        assert_eq!(fs::read_to_string(folder.path("sheet.txt")).unwrap(), text);
    }
}

#[test]
fn a_name_can_hold_anything() {
    let folder = Folder::new("names");
    let odd = "a\u{1b}[2J b\u{e9}";
    folder.file(odd, BAD);
    folder.file("-w", example("untidy.txt"));
    let answer = folder.run(&[odd]);
    assert!(
        answer.err.starts_with("a\u{FFFD}[2J b\u{e9}:2:8: error[5]"),
        "{answer:?}"
    );
    folder.run(&["-l", "--", "-w"]).assert(1, "-w\n", "");
}
