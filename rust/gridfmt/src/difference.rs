//! The difference of two files, line by line, as `diff -u` prints it.

/// Lines of context around a change.
const CONTEXT: usize = 3;

#[derive(Clone, Copy, PartialEq, Eq, Debug)]
enum Edit {
    Keep,
    Delete,
    Insert,
}

/// The difference from `old` to `new`, for a file of this name, or nothing where they agree.
pub fn unified(name: &[u8], old: &[u8], new: &[u8]) -> Vec<u8> {
    let (old, new) = (lines(old), lines(new));
    let edits = edits(&old, &new);
    if edits.iter().all(|&edit| edit == Edit::Keep) {
        return vec![];
    }
    let mut out = [
        &b"diff "[..],
        name,
        b".orig ",
        name,
        b"\n--- ",
        name,
        b".orig\n+++ ",
        name,
        b"\n",
    ]
    .concat();
    for hunk in hunks(&edits) {
        print_hunk(&mut out, &edits, hunk, &old, &new);
    }
    out
}

fn lines(text: &[u8]) -> Vec<&[u8]> {
    text.split_inclusive(|&b| b == b'\n').collect()
}

/// The edits from one list of lines to another, with as many lines kept as can be.
fn edits(old: &[&[u8]], new: &[&[u8]]) -> Vec<Edit> {
    let alike = |(a, b): &(&&[u8], &&[u8])| a == b;
    let head = old.iter().zip(new).take_while(alike).count();
    let (old, new) = (&old[head..], &new[head..]);
    let tail = old
        .iter()
        .rev()
        .zip(new.iter().rev())
        .take_while(alike)
        .count();
    let (old, new) = (&old[..old.len() - tail], &new[..new.len() - tail]);
    let kept = longest(old, new);
    let mut edits = vec![Edit::Keep; head];
    let (mut i, mut j) = (0, 0);
    while i < old.len() || j < new.len() {
        if i < old.len() && j < new.len() && old[i] == new[j] {
            edits.push(Edit::Keep);
            (i, j) = (i + 1, j + 1);
        } else if i < old.len() && (j == new.len() || kept[i + 1][j] >= kept[i][j + 1]) {
            edits.push(Edit::Delete);
            i += 1;
        } else {
            edits.push(Edit::Insert);
            j += 1;
        }
    }
    edits.extend(vec![Edit::Keep; tail]);
    edits
}

/// For each two rests, from line i and from line j, the most lines that they share in order.
/// A sheet and its redrawing have at most 128 lines each, and what stands around them agrees.
fn longest(old: &[&[u8]], new: &[&[u8]]) -> Vec<Vec<usize>> {
    let mut kept = vec![vec![0; new.len() + 1]; old.len() + 1];
    for i in (0..old.len()).rev() {
        for j in (0..new.len()).rev() {
            kept[i][j] = if old[i] == new[j] {
                kept[i + 1][j + 1] + 1
            } else {
                kept[i + 1][j].max(kept[i][j + 1])
            };
        }
    }
    kept
}

/// The ranges of edits that are printed together: each change with its context.
fn hunks(edits: &[Edit]) -> Vec<std::ops::Range<usize>> {
    let mut hunks: Vec<std::ops::Range<usize>> = vec![];
    for (at, _) in edits
        .iter()
        .enumerate()
        .filter(|&(_, &edit)| edit != Edit::Keep)
    {
        let end = (at + 1 + CONTEXT).min(edits.len());
        match hunks.last_mut() {
            Some(last) if at <= last.end + CONTEXT => last.end = end,
            _ => hunks.push(at.saturating_sub(CONTEXT)..end),
        }
    }
    hunks
}

fn print_hunk(
    out: &mut Vec<u8>,
    edits: &[Edit],
    hunk: std::ops::Range<usize>,
    old: &[&[u8]],
    new: &[&[u8]],
) {
    let counted = |edits: &[Edit], other: Edit| edits.iter().filter(|&&e| e != other).count();
    let (before, within) = (&edits[..hunk.start], &edits[hunk]);
    let mut i = counted(before, Edit::Insert);
    let mut j = counted(before, Edit::Delete);
    let range = |start: usize, count: usize| match count {
        0 => format!("{start},0"),
        1 => format!("{}", start + 1),
        _ => format!("{},{count}", start + 1),
    };
    let from = range(i, counted(within, Edit::Insert));
    let to = range(j, counted(within, Edit::Delete));
    out.extend(format!("@@ -{from} +{to} @@\n").as_bytes());
    for edit in within {
        let (sign, line) = match edit {
            Edit::Keep => (b' ', old[i]),
            Edit::Delete => (b'-', old[i]),
            Edit::Insert => (b'+', new[j]),
        };
        i += usize::from(*edit != Edit::Insert);
        j += usize::from(*edit != Edit::Delete);
        out.push(sign);
        out.extend(line);
        if !line.ends_with(b"\n") {
            out.extend(b"\n\\ No newline at end of file\n");
        }
    }
}

#[cfg(test)]
mod tests {
    use super::*;
    use paper::make::Rng;

    fn printed(old: &str, new: &str) -> String {
        String::from_utf8(unified(b"f", old.as_bytes(), new.as_bytes())).unwrap()
    }

    #[test]
    fn it_is_that_of_diff() {
        assert_eq!(printed("a\n", "a\n"), "");
        let head = "diff f.orig f\n--- f.orig\n+++ f\n";
        assert_eq!(
            printed("a\n", "b\n"),
            format!("{head}@@ -1 +1 @@\n-a\n+b\n")
        );
        assert_eq!(printed("", "b\n"), format!("{head}@@ -0,0 +1 @@\n+b\n"));
        assert_eq!(
            printed("a\nb", "a\nc"),
            format!(
                "{head}@@ -1,2 +1,2 @@\n a\n-b\n\\ No newline at end of file\n+c\n\
                 \\ No newline at end of file\n"
            )
        );
        let text = "1\n2\n3\n4\n5\n6\n7\n8\n9\n";
        let changed = text.replace("1\n", "x\n").replace("9\n", "y\n");
        assert_eq!(
            printed(text, &changed),
            format!(
                "{head}@@ -1,4 +1,4 @@\n-1\n+x\n 2\n 3\n 4\n@@ -6,4 +6,4 @@\n 6\n 7\n 8\n-9\n+y\n"
            )
        );
    }

    /// The new file, put together from the old one and the printed hunks.
    fn patched(old: &[u8], difference: &[u8]) -> Vec<u8> {
        let old = lines(old);
        let mut printed = lines(difference).into_iter().skip(3).peekable();
        let (mut new, mut i) = (vec![], 0);
        while let Some(line) = printed.next() {
            let text = match printed.peek() {
                Some(next) if next.starts_with(b"\\") => {
                    printed.next();
                    &line[..line.len() - 1]
                }
                _ => line,
            };
            match line[0] {
                b'@' => {
                    let range = std::str::from_utf8(line)
                        .unwrap()
                        .split([' ', ','])
                        .nth(1)
                        .unwrap();
                    let start: usize = range[1..].parse().unwrap();
                    let none = line.starts_with(format!("@@ -{start},0 ").as_bytes());
                    let start = if none { start } else { start - 1 };
                    new.extend(old[i..start].concat());
                    i = start;
                }
                b'+' => new.extend(&text[1..]),
                b'-' => i += 1,
                _ => {
                    assert_eq!(&text[1..], old[i]);
                    new.extend(old[i]);
                    i += 1;
                }
            }
        }
        new.extend(old[i..].concat());
        new
    }

    #[test]
    fn patching_the_old_file_gives_the_new_one() {
        for seed in 0..2_000 {
            let mut rng = Rng::new(seed);
            let mut text = || {
                let lines = rng.below(14);
                let mut text: String = (0..lines)
                    .map(|_| format!("{}\n", rng.pick(&['a', 'b', 'c'])))
                    .collect();
                if rng.once_in(3) {
                    text.pop();
                }
                text
            };
            let (old, new) = (text(), text());
            let difference = unified(b"f", old.as_bytes(), new.as_bytes());
            let patched = patched(old.as_bytes(), &difference);
            assert_eq!(String::from_utf8(patched).unwrap(), new, "seed {seed}");
        }
    }
}
