//! Before anything is compiled: the given Rust must be where `COMRAK_DIR`
//! says, byte for byte as listed in SUMS. Where `GRID_LIB_DIR` is set, the
//! proved library is linked from there.

mod sha256;

use std::path::{Path, PathBuf};
use std::process::exit;
use std::{env, fs};

const VARIABLE: &str = "COMRAK_DIR";
const LIBRARY: &str = "GRID_LIB_DIR";
/// The calls that `src/library.rs` and `src/library/beside.rs` declare.
const CALLS: [&str; 13] = [
    "grid_layout",
    "grid_cell_fragment",
    "grid_table",
    "grid_cell",
    "grid_redraw",
    "grid_redraw_sheet",
    "grid_positions",
    "grid_cell_position",
    "grid_add_line_end",
    "grid_find_line_end",
    "grid_remap_line_end",
    "grid_page",
    "grid_share",
];

fn main() {
    println!("cargo::rerun-if-env-changed={VARIABLE}");
    println!("cargo::rerun-if-changed=SUMS");

    let folder = folder();
    let sums = fs::read_to_string("SUMS").unwrap_or_else(|e| stop(&format!("SUMS: {e}")));
    for line in sums.lines() {
        let Some((sum, name)) = line.split_once("  ") else {
            stop(&format!("SUMS: not a checksum line: {line}"));
        };
        let file = folder.join(name);
        println!("cargo::rerun-if-changed={}", file.display());
        let bytes = fs::read(&file)
            .unwrap_or_else(|e| stop(&format!("{VARIABLE}: {}: {e}", file.display())));
        if sha256::hex(&bytes) != sum {
            stop(&format!(
                "{VARIABLE}: {} is not the file listed in SUMS (SHA-256 differs)",
                file.display()
            ));
        }
    }
    println!("cargo::rustc-env={VARIABLE}={}", folder.display());
    name_arena_tree(&folder);
    link_library();
}

/// Links `libgridtable.a` of the folder that the variable names, if it is set.
fn link_library() {
    println!("cargo::rerun-if-env-changed={LIBRARY}");
    println!("cargo::rustc-check-cfg=cfg(grid_lib)");
    let Some(value) = env::var_os(LIBRARY) else {
        return;
    };
    let folder = fs::canonicalize(&value)
        .unwrap_or_else(|e| stop(&format!("{LIBRARY}: {}: {e}", value.display())));
    let archive = folder.join("libgridtable.a");
    if !archive.is_file() {
        stop(&format!("{LIBRARY}: {} is not there", archive.display()));
    }
    println!("cargo::rerun-if-changed={}", archive.display());
    println!("cargo::rustc-link-search=native={}", folder.display());
    println!("cargo::rustc-link-lib=static=gridtable");
    println!("cargo::rustc-cfg=grid_lib");
    require_calls(&archive);
}

/// Stops where an archive, of an older state say, is without a call that is
/// compared, in a sentence that the linker would not find.
fn require_calls(archive: &Path) {
    let bytes = fs::read(archive).unwrap_or_else(|e| stop(&format!("{}: {e}", archive.display())));
    for call in CALLS {
        let name = format!("{call}\0").into_bytes();
        if !bytes.windows(name.len()).any(|part| part == name) {
            stop(&format!(
                "{LIBRARY}: {} is without the call {call}",
                archive.display()
            ));
        }
    }
}

/// The folder as an absolute path, since `include!` would read a relative one
/// from the including file's folder.
fn folder() -> PathBuf {
    let Some(value) = env::var_os(VARIABLE) else {
        stop(&format!(
            "the environment variable {VARIABLE} is not set; \
             it names the folder that holds comrak's src/ at commit a517526621"
        ));
    };
    fs::canonicalize(&value)
        .unwrap_or_else(|e| stop(&format!("{VARIABLE}: {}: {e}", value.display())))
}

/// arena_tree.rs opens with module documentation, which `include!` refuses;
/// so it is named as a module with a path, in a file of our own.
fn name_arena_tree(folder: &Path) {
    let path = folder.join("src/arena_tree.rs");
    let out = PathBuf::from(env::var_os("OUT_DIR").unwrap()).join("arena_tree_mod.rs");
    let text = format!(
        "#[allow(dead_code)]\n#[path = {:?}]\npub mod arena_tree;\n",
        path.display().to_string()
    );
    fs::write(&out, text).unwrap_or_else(|e| stop(&format!("{}: {e}", out.display())));
}

fn stop(message: &str) -> ! {
    eprintln!("compare: {message}");
    exit(1)
}
