//! Threads side by side, each with a workspace of its own, and plain calls.

mod common;

use std::thread;

use common::{EXAMPLES, example, lines};
use gridtable::{Drawing, Table, Workspace};

#[test]
fn threads_side_by_side_answer_as_one_does() {
    let texts: Vec<String> = EXAMPLES.iter().map(|(name, _)| example(name)).collect();
    let alone: Vec<(Table, Drawing)> = texts
        .iter()
        .map(|t| both(&mut Workspace::new(), t))
        .collect();
    thread::scope(|scope| {
        for first in 0..8 {
            let (texts, alone) = (&texts, &alone);
            scope.spawn(move || {
                let mut kept = Workspace::new();
                for round in 0..500 {
                    let i = (first + round) % texts.len();
                    assert_eq!(both(&mut kept, &texts[i]), alone[i]);
                }
                for (text, expected) in texts.iter().zip(alone) {
                    assert_eq!(&both(&mut Workspace::new(), text), expected);
                }
            });
        }
    });
}

fn both(workspace: &mut Workspace, text: &str) -> (Table, Drawing) {
    let lines = lines(text);
    let table = workspace.read(&lines).unwrap();
    let drawing = workspace.redraw(&table, 0).unwrap();
    assert_eq!(workspace.redraw_sheet(&lines, 0).unwrap(), drawing);
    (table, drawing)
}

/// A workspace moves to another thread.
#[test]
fn a_workspace_can_be_sent() {
    let mut workspace = Workspace::new();
    let text = example("list.txt");
    let here = workspace.layout(&lines(&text)).unwrap();
    let there = thread::spawn(move || workspace.layout(&lines(&text)).unwrap());
    assert_eq!(there.join().unwrap(), here);
}
