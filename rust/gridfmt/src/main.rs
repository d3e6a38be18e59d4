//! gridfmt: redraws sheets of grid tables, as gofmt does with Go.
//!
//! Reading, redraw and the page are the crate `gridtable`'s proved calls. All else is here,
//! in plain Rust: `arguments`; `files`, read and replaced; the `frame` around a sheet;
//! `messages` for refusals, with `corner` for refusal 6; `doubts`; the `difference`; the
//! document around a page, `html`; the `progress` line. `format` puts the calls and the frame
//! together, `run` goes from file to file.
#![forbid(unsafe_code)]

mod arguments;
mod corner;
mod difference;
mod doubts;
mod files;
mod format;
mod frame;
mod html;
mod messages;
mod progress;
mod run;
mod screen;

use std::env;
use std::process::ExitCode;

fn main() -> ExitCode {
    run::run(env::args_os().skip(1)).into()
}
