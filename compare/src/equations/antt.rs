//! Terms and equations of antt in print.

use std::array::from_fn;

use crate::make::Rng;
use crate::paper::{Answer, Refusal};

/// An input with its equations, which hold by computing.
pub struct Case {
    /// The name that opens the definitions.
    opened: &'static str,
    pub text: String,
    pub equations: usize,
    /// The number of each answer, 0 for acceptance.
    pub numbers: Vec<usize>,
}

impl Case {
    pub fn new(opened: &'static str) -> Case {
        Case {
            opened,
            text: String::new(),
            equations: 0,
            numbers: vec![],
        }
    }

    /// A name for a term.
    pub fn name(&mut self, name: &str, of_type: &str, term: &str) {
        self.text += &format!("\nabbrev {name} : {of_type}\n{name} = {term}\n");
    }

    pub fn equation(&mut self, name: &str, left: &str, right: &str) {
        let opened = self.opened;
        self.equations += 1;
        self.text += &format!("\n{name} : {left}\n    ≡ {right}\n");
        self.text += &format!("unfolding {opened}\n{name} = refl\n");
    }

    /// What a call answers.
    pub fn answer(&mut self, name: &str, call: &str, answer: &Answer<String>) {
        let (number, right) = match answer {
            Ok(term) => (0, format!("accept ({term})")),
            Err(Refusal { number, place }) => (*number, format!("refuse {number} {place}")),
        };
        self.numbers.push(number);
        self.equation(name, call, &right);
    }

    /// What a call answers and what its outputs hold afterwards. The two
    /// definitions start with the same word.
    pub fn call(&mut self, name: &str, word: &str, given: &str, outputs: &Outputs) {
        let lent = &outputs.lent;
        let answered = format!("{word}_answer {given} ({lent})");
        self.answer(name, &answered, &outputs.answer);
        let afterwards = format!("{word}_afterwards {given} ({lent})");
        self.equation(&format!("{name}-after"), &afterwards, &outputs.after);
    }
}

pub fn list(numbers: &[usize]) -> String {
    let mut out = String::new();
    for number in numbers {
        out += &format!("{number} ∷ ");
    }
    out + "[]"
}

pub fn bytes(bytes: &[u8]) -> String {
    list(&bytes.iter().map(|&b| b.into()).collect::<Vec<_>>())
}

pub fn record(names: &[&str], terms: &[String]) -> String {
    assert_eq!(names.len(), terms.len());
    let fields = names.iter().zip(terms);
    let fields: Vec<String> = fields.map(|(n, term)| format!("{n} = {term}")).collect();
    format!("record {{ {} }}", fields.join("; "))
}

pub fn numbers(names: &[&str], values: &[usize]) -> String {
    let terms: Vec<String> = values.iter().map(|n| n.to_string()).collect();
    record(names, &terms)
}

/// The output arrays that a call is lent, its answer, and what they hold
/// afterwards.
pub struct Outputs {
    lent: String,
    answer: Answer<String>,
    after: String,
}

impl Outputs {
    /// Arrays for these results, each with an entry past its result; now and
    /// then one is too short. A refused call leaves them. They are fields of
    /// these names, or one array without a name.
    pub fn new<const N: usize>(
        rng: &mut Rng,
        names: [&str; N],
        expected: Answer<(String, [Vec<usize>; N])>,
    ) -> Outputs {
        let together = |terms: [String; N]| match names[..] {
            [""] => terms.concat(),
            _ => record(&names, &terms),
        };
        // Each array is filled with another number.
        let fill = |i: usize| 201 + i;
        let lent = |lengths: [usize; N]| {
            together(from_fn(|i| format!("replicate {} {}", lengths[i], fill(i))))
        };
        let refused = |refusal: Refusal, lengths: [usize; N]| Outputs {
            lent: lent(lengths),
            answer: Err(refusal),
            after: lent(lengths),
        };
        let (term, results) = match expected {
            Ok(expected) => expected,
            Err(refusal) => return refused(refusal, [3; N]),
        };
        let mut lengths: [usize; N] = from_fn(|i| results[i].len() + 1);
        let short = rng.below(N);
        if !results[short].is_empty() && rng.once_in(8) {
            lengths[short] = rng.shorter(results[short].len());
            let refusal = Refusal {
                number: 12,
                place: 0,
            };
            return refused(refusal, lengths);
        }
        Outputs {
            lent: lent(lengths),
            answer: Ok(term),
            after: together(from_fn(|i| list(&[&results[i][..], &[fill(i)]].concat()))),
        }
    }
}
