//! Finds `libgridtable.a`, or has it made, or stops in a sentence that says how.

use std::path::{Path, PathBuf};
use std::process::{Command, exit};
use std::{env, fs};

const ARCHIVE: &str = "libgridtable.a";
/// The folder in the project in which `rt lib` makes it.
const CRATE: &str = "crates/gridtable";
/// The folder of the archive, where it is not the project's own.
const VARIABLE: &str = "GRID_LIB_DIR";
const DECLARED: &str = "src/ffi.rs";

fn main() {
    println!("cargo::rerun-if-env-changed={VARIABLE}");
    println!("cargo::rerun-if-changed=build.rs");
    println!("cargo::rerun-if-changed={DECLARED}");
    if env::var("CARGO_CFG_TARGET_ARCH").is_ok_and(|arch| arch != "x86_64") {
        stop(&format!("{ARCHIVE} is made for x86-64 alone"));
    }
    let archive = archive();
    println!("cargo::rerun-if-changed={}", archive.display());
    require_calls(&archive);
    let folder = archive.parent().unwrap();
    println!("cargo::rustc-link-search=native={}", folder.display());
    println!("cargo::rustc-link-lib=static=gridtable");
}

/// The archive that the variable names; else the project's; else one made now.
fn archive() -> PathBuf {
    if let Some(folder) = env::var_os(VARIABLE) {
        let archive = Path::new(&folder).join(ARCHIVE);
        return fs::canonicalize(&archive)
            .unwrap_or_else(|e| stop(&format!("{VARIABLE}: {}: {e}", archive.display())));
    }
    let project = project();
    let archive = project.join(CRATE).join("out").join(ARCHIVE);
    if !archive.is_file() {
        make(&project, &archive);
    }
    archive
}

fn project() -> PathBuf {
    let crate_folder = PathBuf::from(env::var_os("CARGO_MANIFEST_DIR").unwrap());
    crate_folder.ancestors().nth(2).unwrap().to_path_buf()
}

fn make(project: &Path, archive: &Path) {
    let folder = project.join(CRATE);
    let how = format!(
        "run `rt lib` in {}, or set {VARIABLE} to the folder of {ARCHIVE}",
        folder.display()
    );
    if !project.join("crates.txt").is_file() {
        stop(&format!("{} is not there; {how}", archive.display()));
    }
    let made = Command::new("rt").arg("lib").current_dir(&folder).status();
    match made {
        Err(e) => stop(&format!(
            "{} is not there, nor is rt ({e}); {how}",
            archive.display()
        )),
        Ok(status) if !status.success() || !archive.is_file() => stop(&format!(
            "`rt lib` did not make {}; {how}",
            archive.display()
        )),
        Ok(_) => {}
    }
}

/// Stops where an archive, of an older state say, is without a call that is
/// declared; the linker would say it less plainly.
fn require_calls(archive: &Path) {
    let declared =
        fs::read_to_string(DECLARED).unwrap_or_else(|e| stop(&format!("{DECLARED}: {e}")));
    let bytes = fs::read(archive).unwrap_or_else(|e| stop(&format!("{}: {e}", archive.display())));
    let calls = declared
        .split("fn ")
        .filter_map(|text| text.split_once('('))
        .map(|(name, _)| name)
        .filter(|name| name.starts_with("grid_"));
    for call in calls {
        let name = format!("{call}\0").into_bytes();
        if !bytes.windows(name.len()).any(|part| part == name) {
            stop(&format!(
                "{} is without the call {call}; make it again with `rt lib` in {}",
                archive.display(),
                project().join(CRATE).display()
            ));
        }
    }
}

fn stop(message: &str) -> ! {
    eprintln!("gridtable: {message}");
    exit(1)
}
