//! The given Rust, run on the arguments of document 01, and a second reading
//! of that document beside it. README.md has the commands.

mod against;
mod arena;
mod beside;
mod check;
mod cm;
mod cuts;
mod draws;
mod equations;
mod given;
mod html;
mod library;
mod lists;
mod nodes;
mod options;
mod parser;
mod print;
mod speed;
mod tally;

include!(concat!(env!("OUT_DIR"), "/arena_tree_mod.rs"));

// The given files name these at the crate's root.
pub(crate) use nodes::node_matches;
pub use options::Options;
// The second reading, a crate of its own.
use ::paper;
use paper::make;

use std::io;
use std::path::Path;
use std::process::ExitCode;

const USAGE: &str = "usage: compare self SEED N
       compare sheets SEED N
       compare tables SEED N
       compare lists DIR
       compare equations SEED N DIR
       compare layout [SEED CALLS]
       compare cut [SEED CUTS]
       compare draw [SEED TABLES]
       compare beside [SEED N]
       compare speed [WORD]
       compare listing
       compare cells
       compare redraw
       compare page [--widths]";

fn main() -> ExitCode {
    let arguments: Vec<String> = std::env::args().skip(1).collect();
    let words: Vec<&str> = arguments.iter().map(String::as_str).collect();
    match run(&words) {
        Some(Ok(true)) => ExitCode::SUCCESS,
        Some(Ok(false)) => ExitCode::FAILURE,
        Some(Err(error)) => {
            eprintln!("compare: {error}");
            ExitCode::FAILURE
        }
        None => {
            eprintln!("{USAGE}");
            ExitCode::from(2)
        }
    }
}

/// None where the words are no command; true where no difference was found.
fn run(words: &[&str]) -> Option<io::Result<bool>> {
    match *words {
        ["lists", folder] => Some(lists::write(Path::new(folder)).map(|()| true)),
        ["layout"] => Some(library::linked().map(|()| against::run(against::SEED, against::CALLS))),
        ["cut"] => Some(library::linked().map(|()| cuts::run(cuts::SEED, cuts::CUTS))),
        ["draw"] => Some(library::linked().map(|()| draws::run(draws::SEED, draws::TABLES))),
        ["beside"] => Some(library::linked().map(|()| beside::run(beside::SEED, beside::N))),
        ["speed"] => Some(library::linked().map(|()| speed::run(""))),
        ["speed", word] => Some(library::linked().map(|()| speed::run(word))),
        ["listing"] => Some(print::listing().map(|()| true)),
        ["cells"] => Some(print::cells().map(|()| true)),
        ["redraw"] => Some(print::redraw().map(|()| true)),
        ["page"] => Some(print::page(false).map(|()| true)),
        ["page", "--widths"] => Some(print::page(true).map(|()| true)),
        ["equations", seed, n, folder] => {
            let (seed, n) = (seed.parse().ok()?, n.parse().ok()?);
            Some(equations::write(seed, n, Path::new(folder)).map(|()| true))
        }
        [command, seed, n] => {
            let (seed, n) = (seed.parse().ok()?, n.parse().ok()?);
            match command {
                "self" => Some(Ok(check::run(seed, n))),
                "sheets" => Some(print::sheets(seed, n).map(|()| true)),
                "tables" => Some(print::tables(seed, n).map(|()| true)),
                "layout" => Some(library::linked().map(|()| against::run(seed, n))),
                "cut" => Some(library::linked().map(|()| cuts::run(seed, n))),
                "draw" => Some(library::linked().map(|()| draws::run(seed, n))),
                "beside" => Some(library::linked().map(|()| beside::run(seed, n))),
                _ => None,
            }
        }
        _ => None,
    }
}
