//! `compare equations`: cases with the Rust's values as equations over the
//! definitions, in a crate for the prover to check by computing.

mod antt;
mod ends;
mod pages;
mod sheets;
mod tables;

use std::collections::BTreeMap;
use std::path::{Path, PathBuf};
use std::{fs, io};

use crate::make::Rng;
use antt::Case;

const NAME: &str = "equations";
const USES: &str = "seq grid drawing sourcepos html";
/// Cases in one file.
const FILE: usize = 20;

/// Writes the crate `equations` into a copy of the repository.
pub fn write(seed: u64, n: usize, repository: &Path) -> io::Result<()> {
    let list = repository.join("crates.txt");
    let mut crates = fs::read_to_string(&list)
        .map_err(|e| io::Error::other(format!("{}: {e}", list.display())))?;
    let mut folder = Folder::new(repository.join("crates").join(NAME))?;
    let rng = &mut Rng::new(seed);
    folder.add("Sheets", sheets::HEAD, sheets::cases(rng, n))?;
    folder.add("Tables", tables::HEAD, tables::cases(rng, n))?;
    folder.add("Pages", pages::HEAD, pages::cases(rng, n))?;
    folder.add("Ends", ends::HEAD, ends::cases(rng, n))?;
    folder.close()?;
    let line = format!("{NAME}: {USES}\n");
    if !crates.contains(&line) {
        crates += &line;
        fs::write(&list, crates)?;
    }
    Ok(())
}

struct Folder {
    path: PathBuf,
    modules: String,
}

impl Folder {
    fn new(path: PathBuf) -> io::Result<Folder> {
        // A file of an earlier run would be in no module.
        if path.exists() {
            fs::remove_dir_all(&path)?;
        }
        fs::create_dir_all(path.join("src"))?;
        fs::create_dir_all(path.join("proofs"))?;
        Ok(Folder {
            path,
            modules: String::new(),
        })
    }

    /// Writes cases of one kind, and prints how many there are.
    fn add(&mut self, kind: &str, head: &str, cases: Vec<Option<Case>>) -> io::Result<()> {
        let total = cases.len();
        let written: Vec<Case> = cases.into_iter().flatten().collect();
        let equations: usize = written.iter().map(|case| case.equations).sum();
        println!(
            "{kind}: {}, left out {}, equations {equations}",
            written.len(),
            total - written.len()
        );
        let mut numbers: BTreeMap<usize, usize> = BTreeMap::new();
        for number in written.iter().flat_map(|case| &case.numbers) {
            *numbers.entry(*number).or_default() += 1;
        }
        for (number, count) in numbers {
            println!("{kind} answer {number}: {count}");
        }
        for (i, part) in written.chunks(FILE).enumerate() {
            let module = format!("{kind}{i}");
            let mut text = head.to_string();
            for case in part {
                text += &case.text;
            }
            fs::write(self.path.join(format!("proofs/{module}.antt")), text)?;
            self.modules += &format!("pub mod {module}\n");
        }
        Ok(())
    }

    fn close(self) -> io::Result<()> {
        let source =
            "// Answers of the Rust, as equations over the definitions.\n#![tactic(auto)]\n";
        fs::write(self.path.join("src/lib.rt"), source)?;
        fs::write(self.path.join("proofs/Lib.antt"), self.modules)
    }
}
