//! The cases of the calls beside the round trip: positions, line ends, shares
//! and the page.

mod ends;
mod pages;
mod positions;
mod shares;

use std::collections::{BTreeMap, BTreeSet};

use super::List;

pub fn cases(list: &mut List) {
    positions::cases(list);
    ends::cases(list);
    shares::cases(list);
    pages::cases(list);
    list.drop_repeated();
}

/// Each kind of case, and the numbers that its call can answer.
const NUMBERS: [(&str, &[usize]); 7] = [
    ("p", &[0, 1, 2, 3, 4, 5, 6, 7, 12, 13]),
    ("c", &[0, 1, 2, 3, 4, 5, 6, 7, 13]),
    ("a", &[0, 2, 13, 14]),
    ("f", &[0, 2, 13]),
    ("m", &[0, 2, 13]),
    ("s", &[0]),
    ("g", &[0, 1, 2, 8, 12, 13]),
];

/// Prints how many answers of each kind had each number, of which none may be
/// missing.
pub fn print_counts(list: &List) {
    let mut counts: BTreeMap<(&str, usize), usize> = BTreeMap::new();
    for (case, answer) in list.cases.lines().zip(list.answers.lines()) {
        let number = match answer.strip_prefix("refused ") {
            Some(rest) => rest.split(' ').next().unwrap().parse().unwrap(),
            None => 0,
        };
        *counts.entry((&case[..1], number)).or_default() += 1;
    }
    let kinds: BTreeMap<(&str, usize), usize> = (NUMBERS.iter())
        .flat_map(|&(kind, numbers)| numbers.iter().map(move |&n| ((kind, n), 0)))
        .collect();
    assert!(counts.keys().eq(kinds.keys()), "{counts:?}");
    for (kind, numbers) in NUMBERS {
        let words: Vec<String> = (numbers.iter())
            .map(|&number| format!("{number}: {}", counts[&(kind, number)]))
            .collect();
        println!("replay_beside {kind}  {}", words.join(", "));
    }
}

/// A generated case is left out where it or its answer is longer than this.
const LONGEST: usize = 400;

impl List {
    /// Leaves the first of the cases that are the same.
    fn drop_repeated(&mut self) {
        let mut seen = BTreeSet::new();
        let all = std::mem::take(self);
        for (case, answer) in all.cases.lines().zip(all.answers.lines()) {
            if seen.insert(case) {
                self.add(case.to_string(), answer.to_string());
            }
        }
    }

    fn add_short(&mut self, (case, answer): (String, String)) {
        if case.len() <= LONGEST && answer.len() <= LONGEST {
            self.add(case, answer);
        }
    }
}

/// Numbers parted by commas; five or more of one as the number, `x` and how
/// many.
fn runs<T: Copy + PartialEq + ToString>(numbers: &[T]) -> String {
    if numbers.is_empty() {
        return "-".to_string();
    }
    let mut items = vec![];
    for run in numbers.chunk_by(|a, b| a == b) {
        let number = run[0].to_string();
        if run.len() < 5 {
            items.extend(vec![number; run.len()]);
        } else {
            items.push(format!("{number}x{}", run.len()));
        }
    }
    items.join(",")
}
