//! Files: read whole, and replaced so that at every moment the old or the new one is there.

use std::fs::{self, File, Metadata, OpenOptions};
use std::io::{self, Read, Seek, Write};
use std::os::unix::fs::{FileTypeExt, MetadataExt, OpenOptionsExt, PermissionsExt};
use std::path::{Path, PathBuf};
use std::{fmt, process};

/// The most bytes that are read: a sheet has fewer than 100,000 with its indent and line ends.
const MOST: u64 = 1 << 20;
/// As many bytes as most files have at most, so that they are read at once.
const USUAL: usize = 1 << 14;
/// The names that are tried for a new file.
const NAMES: u32 = 10_000;
/// An open that does not wait for a pipe's other end (Linux).
const O_NONBLOCK: i32 = 0o4000;

/// A step that failed, and why.
#[derive(Debug)]
pub struct Failure {
    step: &'static str,
    why: String,
    /// Whether the new file is in the old one's place already.
    pub replaced: bool,
}

impl Failure {
    fn new(step: &'static str, why: impl fmt::Display) -> Failure {
        Failure {
            step,
            why: why.to_string(),
            replaced: false,
        }
    }
}

impl fmt::Display for Failure {
    fn fmt(&self, f: &mut fmt::Formatter<'_>) -> fmt::Result {
        write!(f, "{}: {}", self.step, self.why)
    }
}

/// Turns an input or output error into the failure of a step.
fn at<E: fmt::Display>(step: &'static str) -> impl FnOnce(E) -> Failure {
    move |error| Failure::new(step, error)
}

/// Standard input's bytes.
pub fn read_standard_input() -> Result<Vec<u8>, Failure> {
    read_most(&mut io::stdin().lock()).map_err(at("reading"))
}

/// A file's bytes.
pub fn read(path: &Path) -> Result<Vec<u8>, Failure> {
    let mut file = open(path, false)?;
    read_most(&mut file).map_err(at("reading"))
}

fn read_most(input: &mut impl Read) -> io::Result<Vec<u8>> {
    let mut bytes = Vec::with_capacity(USUAL);
    input.take(MOST + 1).read_to_end(&mut bytes)?;
    if bytes.len() as u64 > MOST {
        return Err(io::Error::other(
            "more than a mebibyte, and no sheet is as large",
        ));
    }
    Ok(bytes)
}

/// Opens a file; nothing else is opened, so that nothing waits.
fn open(path: &Path, write: bool) -> Result<File, Failure> {
    let looked = fs::metadata(path).map_err(at("opening"))?;
    check_kind(&looked)?;
    let mut options = OpenOptions::new();
    options.read(true).write(write).custom_flags(O_NONBLOCK);
    let file = options.open(path).map_err(at("opening"))?;
    // The file that was opened may be another one than was looked at.
    check_kind(&file.metadata().map_err(at("opening"))?)?;
    Ok(file)
}

fn check_kind(metadata: &Metadata) -> Result<(), Failure> {
    let kind = metadata.file_type();
    let what = if kind.is_file() {
        return Ok(());
    } else if kind.is_dir() {
        "it is a folder; name the files in it"
    } else if kind.is_fifo() {
        "it is a pipe; let standard input come from it"
    } else if kind.is_socket() {
        "it is a socket, not a file"
    } else {
        "it is a device, not a file"
    };
    Err(Failure::new("opening", what))
}

/// What tells a file from another one, or from itself after a change.
#[derive(Clone, Copy, PartialEq, Eq, Debug)]
struct Stamp {
    file: (u64, u64),
    links: u64,
    bytes: u64,
    modified: (i64, i64),
    changed: (i64, i64),
    mode: u32,
    owner: (u32, u32),
}

impl Stamp {
    fn of(file: &File) -> io::Result<Stamp> {
        let metadata = file.metadata()?;
        Ok(Stamp {
            file: (metadata.dev(), metadata.ino()),
            links: metadata.nlink(),
            bytes: metadata.size(),
            modified: (metadata.mtime(), metadata.mtime_nsec()),
            changed: (metadata.ctime(), metadata.ctime_nsec()),
            mode: metadata.mode() & 0o7777,
            owner: (metadata.uid(), metadata.gid()),
        })
    }
}

/// A file that was read and may be replaced.
pub struct Original {
    /// Its own path, links followed.
    path: PathBuf,
    stamp: Stamp,
    pub bytes: Vec<u8>,
}

impl Original {
    /// Opens the file for writing too, so that one that may not be written is refused; nothing
    /// is written to it.
    pub fn read(path: &Path) -> Result<Original, Failure> {
        let path = fs::canonicalize(path).map_err(at("opening"))?;
        let mut file = open(&path, true)?;
        let stamp = Stamp::of(&file).map_err(at("opening"))?;
        if stamp.links > 1 {
            let why = format!(
                "it has {} names (hard links), and would lose all but one",
                stamp.links
            );
            return Err(Failure::new("opening", why));
        }
        let bytes = read_most(&mut file).map_err(at("reading"))?;
        Ok(Original { path, stamp, bytes })
    }

    /// Replaces the file by a new one with these bytes, which `check` has to find right as they
    /// are read back. A failed step leaves the old file, and no other.
    pub fn replace(
        &self,
        bytes: &[u8],
        check: impl FnOnce(&[u8]) -> Result<(), String>,
    ) -> Result<(), Failure> {
        let folder = self.path.parent().unwrap_or(Path::new("/"));
        let opened = File::open(folder).map_err(at("opening its folder"))?;
        let mut new = New::make(folder)?;
        new.file
            .write_all(bytes)
            .map_err(at("writing the new file"))?;
        new.resemble(&self.stamp)?;
        new.file.sync_all().map_err(at("syncing the new file"))?;
        let back = new.read_back().map_err(at("reading the new file back"))?;
        if back != bytes {
            let why = "it has other bytes than were written";
            return Err(Failure::new("reading the new file back", why));
        }
        check(&back).map_err(at("reading the new file back"))?;
        self.check_unchanged()?;
        new.rename(&self.path)
            .map_err(at("renaming the new file"))?;
        opened.sync_all().map_err(|error| Failure {
            replaced: true,
            ..Failure::new("syncing its folder", error)
        })
    }

    /// That the file is still the one that was read.
    fn check_unchanged(&self) -> Result<(), Failure> {
        let step = "looking at the old file again";
        let mut file = open(&self.path, false).map_err(at(step))?;
        let stamp = Stamp::of(&file).map_err(at(step))?;
        let bytes = read_most(&mut file).map_err(at(step))?;
        if stamp != self.stamp || bytes != self.bytes {
            return Err(Failure::new(
                step,
                "another program has changed it meanwhile",
            ));
        }
        Ok(())
    }
}

/// A new file, which is removed again unless it is renamed.
struct New {
    path: PathBuf,
    file: File,
    renamed: bool,
}

impl New {
    /// Makes it under a name that no file has; one that a killed run has left is passed over.
    fn make(folder: &Path) -> Result<New, Failure> {
        let mut options = OpenOptions::new();
        options.read(true).write(true).create_new(true).mode(0o600);
        let mut n = 0;
        loop {
            let path = folder.join(format!(".gridfmt-{}-{n}", process::id()));
            match options.open(&path) {
                Ok(file) => {
                    let renamed = false;
                    return Ok(New {
                        path,
                        file,
                        renamed,
                    });
                }
                Err(error) if error.kind() == io::ErrorKind::AlreadyExists && n < NAMES => n += 1,
                Err(error) => return Err(Failure::new("making a new file in its folder", error)),
            }
        }
    }

    /// Gives it the owner and then the mode of the old file; a new owner takes bits of the mode
    /// away.
    fn resemble(&self, old: &Stamp) -> Result<(), Failure> {
        let own = Stamp::of(&self.file).map_err(at("looking at the new file"))?;
        if own.owner != old.owner {
            let (user, group) = old.owner;
            let user = (user != own.owner.0).then_some(user);
            let group = (group != own.owner.1).then_some(group);
            std::os::unix::fs::fchown(&self.file, user, group).map_err(at("keeping the owner"))?;
        }
        let mode = fs::Permissions::from_mode(old.mode);
        self.file
            .set_permissions(mode)
            .map_err(at("keeping the mode"))
    }

    fn read_back(&mut self) -> io::Result<Vec<u8>> {
        self.file.rewind()?;
        read_most(&mut self.file)
    }

    fn rename(&mut self, to: &Path) -> io::Result<()> {
        fs::rename(&self.path, to)?;
        self.renamed = true;
        Ok(())
    }
}

impl Drop for New {
    fn drop(&mut self) {
        if !self.renamed {
            let _ = fs::remove_file(&self.path);
        }
    }
}

#[cfg(test)]
mod tests {
    use super::*;
    use std::os::unix::fs::symlink;

    /// A folder of its own, removed at the end.
    struct Folder(PathBuf);

    impl Folder {
        fn new(name: &str) -> Folder {
            let path = std::env::temp_dir().join(format!("gridfmt-{}-{name}", process::id()));
            fs::create_dir(&path).unwrap();
            Folder(path)
        }

        fn file(&self, name: &str, bytes: &str) -> PathBuf {
            let path = self.0.join(name);
            fs::write(&path, bytes).unwrap();
            path
        }

        fn names(&self) -> Vec<String> {
            let entries = fs::read_dir(&self.0).unwrap();
            let name = |entry: io::Result<fs::DirEntry>| entry.unwrap().file_name();
            let mut names: Vec<String> = entries
                .map(|entry| name(entry).into_string().unwrap())
                .collect();
            names.sort();
            names
        }
    }

    impl Drop for Folder {
        fn drop(&mut self) {
            let _ = fs::remove_dir_all(&self.0);
        }
    }

    fn fine(_: &[u8]) -> Result<(), String> {
        Ok(())
    }

    #[test]
    fn a_file_is_replaced_and_nothing_is_left() {
        let folder = Folder::new("replaced");
        let path = folder.file("a", "old");
        let old = Original::read(&path).unwrap();
        let mut seen = vec![];
        let check = |back: &[u8]| {
            seen = back.to_vec();
            Ok(())
        };
        old.replace(b"new", check).unwrap();
        assert_eq!(
            (&seen[..], &fs::read(&path).unwrap()[..]),
            (&b"new"[..], &b"new"[..])
        );
        assert_eq!(folder.names(), ["a"]);
    }

    #[test]
    fn one_that_reads_back_otherwise_is_not_put_in_place() {
        let folder = Folder::new("otherwise");
        let path = folder.file("a", "old");
        let old = Original::read(&path).unwrap();
        let failure = old
            .replace(b"new", |_| Err("another table".to_owned()))
            .unwrap_err();
        assert_eq!(
            failure.to_string(),
            "reading the new file back: another table"
        );
        assert_eq!(fs::read(&path).unwrap(), b"old");
        assert_eq!(folder.names(), ["a"]);
    }

    /// What another program may do to a file `old`, and what is there then.
    type Change = (&'static str, fn(&Path), Option<&'static str>);
    const CHANGES: [Change; 6] = [
        (
            "grew",
            |path| fs::write(path, "old and more").unwrap(),
            Some("old and more"),
        ),
        (
            "length",
            |path| fs::write(path, "own").unwrap(),
            Some("own"),
        ),
        (
            "touched",
            |path| fs::write(path, "old").unwrap(),
            Some("old"),
        ),
        ("another", |path| replaced_by_its_like(path), Some("old")),
        ("mode", |path| set_mode(path, 0o600), Some("old")),
        ("removed", |path| fs::remove_file(path).unwrap(), None),
    ];

    fn replaced_by_its_like(path: &Path) {
        let other = path.with_file_name("b");
        fs::write(&other, "old").unwrap();
        fs::rename(other, path).unwrap();
    }

    fn set_mode(path: &Path, mode: u32) {
        fs::set_permissions(path, fs::Permissions::from_mode(mode)).unwrap();
    }

    /// Whatever another program does between reading and renaming, its work stays.
    #[test]
    fn a_file_that_changed_meanwhile_is_left_alone() {
        for (name, change, left) in CHANGES {
            let folder = Folder::new(&format!("meanwhile-{name}"));
            let path = folder.file("a", "old");
            let old = Original::read(&path).unwrap();
            // The clock that stamps files may tick as slowly as a hundred times a second.
            std::thread::sleep(std::time::Duration::from_millis(20));
            let changed = |_: &[u8]| {
                change(&path);
                Ok(())
            };
            let said = old.replace(b"new", changed).unwrap_err().to_string();
            assert!(
                said.starts_with("looking at the old file again: "),
                "{name}: {said}"
            );
            assert_eq!(fs::read_to_string(&path).ok().as_deref(), left, "{name}");
            assert_eq!(folder.names().len(), usize::from(left.is_some()), "{name}");
        }
    }

    #[test]
    fn what_a_killed_run_has_left_is_passed_over() {
        let folder = Folder::new("litter");
        let path = folder.file("a", "old");
        let litter = format!(".gridfmt-{}-0", process::id());
        folder.file(&litter, "half");
        Original::read(&path)
            .unwrap()
            .replace(b"new", fine)
            .unwrap();
        assert_eq!(fs::read(&path).unwrap(), b"new");
        assert_eq!(folder.names(), [&litter[..], "a"]);
    }

    #[test]
    fn the_mode_is_kept() {
        let folder = Folder::new("mode");
        for mode in [0o600, 0o640, 0o664, 0o755, 0o2755, 0o4755] {
            let path = folder.file("a", "old");
            set_mode(&path, mode);
            Original::read(&path)
                .unwrap()
                .replace(b"new", fine)
                .unwrap();
            let kept = fs::metadata(&path).unwrap().mode() & 0o7777;
            assert_eq!(kept, mode, "{mode:o}");
            fs::remove_file(&path).unwrap();
        }
    }

    #[test]
    fn links_are_followed() {
        let folder = Folder::new("links");
        let path = folder.file("a", "old");
        symlink("a", folder.0.join("b")).unwrap();
        symlink(folder.0.join("b"), folder.0.join("c")).unwrap();
        Original::read(&folder.0.join("c"))
            .unwrap()
            .replace(b"new", fine)
            .unwrap();
        assert_eq!(fs::read(&path).unwrap(), b"new");
        for link in ["b", "c"] {
            assert!(
                fs::symlink_metadata(folder.0.join(link))
                    .unwrap()
                    .is_symlink()
            );
        }
        symlink("nowhere", folder.0.join("d")).unwrap();
        assert!(Original::read(&folder.0.join("d")).is_err());
        symlink("e", folder.0.join("e")).unwrap();
        assert!(Original::read(&folder.0.join("e")).is_err());
    }

    #[test]
    fn a_file_of_several_names_is_refused() {
        let folder = Folder::new("names");
        let path = folder.file("a", "old");
        fs::hard_link(&path, folder.0.join("b")).unwrap();
        let failure = Original::read(&path).map(|_| ()).unwrap_err();
        assert!(
            failure.to_string().contains("2 names (hard links)"),
            "{failure}"
        );
        assert_eq!(read(&path).unwrap(), b"old");
    }

    #[test]
    fn an_endless_input_is_not_read_to_its_end() {
        let said = read_most(&mut io::repeat(b' ')).unwrap_err().to_string();
        assert!(said.contains("mebibyte"), "{said}");
        let most = read_most(&mut io::repeat(b' ').take(MOST)).unwrap();
        assert_eq!(most.len() as u64, MOST);
    }
}
