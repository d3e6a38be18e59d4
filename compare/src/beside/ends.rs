//! The register of line ends: adding, finding and remapping.

use std::fmt;

use crate::against::guarded::{Guarded, WIDEST_GUARD};
use crate::library::beside::{
    self, AddReply, FindReply, Fragments, LineEnd, Register, RegisterMut, RemapReply,
};
use crate::make::Rng;
use crate::make::ends::Numbers;
use crate::paper::ends::{self, End};
use crate::paper::{Answer, Refusal, limits, refuse};
use crate::parser::grid_table;
use crate::tally::Tally;

/// On each register: so many ends are found, added and remapped.
const FOUND: usize = 16;
const ADDED: usize = 4;
const REMAPPED: usize = 4;

/// Registers of every size in turns, and full ones between them.
pub fn run(rng: Rng, n: usize) -> Tally {
    let mut run = Run {
        rng,
        arrays: [(); 3].map(|()| Guarded::new(WIDEST_GUARD)),
        tally: Tally::default(),
    };
    for i in 0..n.div_ceil(FOUND) {
        run.register(i % (limits::REGISTER + 1));
        if run.rng.once_in(16) {
            run.register(limits::REGISTER);
        }
    }
    run.tally
}

struct Run {
    rng: Rng,
    /// A register's lines, starts and eols; fragments' lines and bytes.
    arrays: [Guarded<u32>; 3],
    tally: Tally,
}

/// A register as it is lent: past its count its arrays hold ends too.
#[derive(Clone)]
struct Given {
    count: usize,
    arrays: [Vec<u32>; 3],
}

/// The ends that count, and the arrays' lengths.
impl fmt::Debug for Given {
    fn fmt(&self, f: &mut fmt::Formatter<'_>) -> fmt::Result {
        let lengths = self.arrays.each_ref().map(Vec::len);
        let held = lengths.into_iter().min().unwrap().min(self.count);
        let ends: Vec<[u32; 3]> = (0..held)
            .map(|i| self.arrays.each_ref().map(|array| array[i]))
            .collect();
        write!(f, "{} {lengths:?} {ends:?}", self.count)
    }
}

pub fn entry(number: usize) -> u32 {
    u32::try_from(number).unwrap()
}

fn entries((line, start, eol): End) -> LineEnd {
    (entry(line), entry(start), entry(eol))
}

/// Around the limits, and far past them.
pub const FAR: [usize; 6] = [0, 1, 65_534, 65_535, 65_536, u32::MAX as usize];

/// An end out of a few numbers; at times one that adding refuses.
pub fn any_end(rng: &mut Rng, numbers: &Numbers, lines: usize) -> End {
    match rng.below(10) {
        0 => (rng.pick(&FAR), rng.pick(&FAR), rng.pick(&FAR)),
        1 => {
            let (line, start, _) = numbers.end(rng, lines);
            (line, start, rng.pick(&FAR))
        }
        _ => numbers.end(rng, lines),
    }
}

/// A line and a column, most often at an end or just beside it.
pub fn any_place(rng: &mut Rng, numbers: &Numbers, ends: &[End]) -> (usize, usize) {
    if rng.once_in(16) {
        return (rng.pick(&FAR), rng.pick(&FAR));
    }
    if ends.is_empty() || rng.once_in(3) {
        return numbers.asked(rng);
    }
    let (line, start, eol) = rng.pick(ends);
    let column = rng.pick(&[start, eol]) + rng.below(3);
    (line, column.saturating_sub(1).min(u32::MAX as usize))
}

fn find_reply(answer: Answer<Option<usize>>) -> FindReply {
    match answer {
        Ok(found) => FindReply {
            number: 0,
            place: 0,
            found: usize::from(found.is_some()),
            eol: found.map_or(0, entry),
        },
        Err(Refusal { number, place }) => FindReply {
            number,
            place,
            ..FindReply::default()
        },
    }
}

fn add_reply(answer: &Answer<Vec<End>>) -> AddReply {
    match answer {
        Ok(longer) => AddReply {
            number: 0,
            place: 0,
            count: longer.len(),
        },
        Err(refusal) => AddReply {
            number: refusal.number,
            place: refusal.place,
            count: 0,
        },
    }
}

fn remap_reply(answer: Answer<End>) -> RemapReply {
    match answer {
        Ok(end) => {
            let (line, start, eol) = entries(end);
            RemapReply {
                number: 0,
                place: 0,
                line,
                start,
                eol,
            }
        }
        Err(Refusal { number, place }) => RemapReply {
            number,
            place,
            ..RemapReply::default()
        },
    }
}

impl Run {
    /// The calls on one register of this size.
    fn register(&mut self, count: usize) {
        let rng = &mut self.rng;
        let numbers = Numbers::new(rng);
        let lines = rng.pick(&[1, 2, 3, 40]);
        let all: Vec<End> = (0..limits::REGISTER)
            .map(|_| any_end(rng, &numbers, lines))
            .collect();
        let array = |pick: fn(&End) -> usize| all.iter().map(|end| entry(pick(end))).collect();
        let given = Given {
            count,
            arrays: [array(|end| end.0), array(|end| end.1), array(|end| end.2)],
        };
        let ends = &all[..count];
        self.find_all(&given, &numbers, ends);
        for _ in 0..ADDED {
            let end = any_end(&mut self.rng, &numbers, lines);
            self.add(&given, end, &ends::add(ends, end));
        }
        self.contradictory(given, &numbers);
        for _ in 0..REMAPPED {
            self.remap(&numbers, count);
        }
    }

    fn find_all(&mut self, given: &Given, numbers: &Numbers, ends: &[End]) {
        let mut accepted = vec![];
        for _ in 0..FOUND {
            let place = any_place(&mut self.rng, numbers, ends);
            let answer = ends::find(ends, place.0, place.1);
            if let Ok(paper) = answer {
                accepted.push((place, paper));
            }
            self.find(given, place, answer);
        }
        let asked: Vec<(usize, usize)> = accepted.iter().map(|&(place, _)| place).collect();
        let rust = grid_table::find_line_ends(ends, &asked);
        for ((place, paper), rust) in accepted.into_iter().zip(rust) {
            if rust != [paper; 2] {
                self.tally
                    .differ("the oracles disagree", &(given, place), &rust, &paper);
            }
        }
    }

    fn find(&mut self, given: &Given, place: (usize, usize), answer: Answer<Option<usize>>) {
        let expected = find_reply(answer);
        let kind = match expected.found {
            0 => "calls: find, none",
            _ => "calls: find, an end",
        };
        self.tally.count(kind, "find", expected.number);
        self.put(&given.arrays);
        let [lines, starts, eols] = self.lent(&given.arrays);
        let register = Register {
            count: given.count,
            lines,
            starts,
            eols,
        };
        let got = beside::find_line_end(register, (entry(place.0), entry(place.1)));
        let input = (given, place);
        if got != expected {
            self.tally.differ("find", &input, &expected, &got);
        }
        if !self.holds(&given.arrays) {
            self.tally
                .differ("the register was written to", &input, &(), &());
        }
    }

    fn add(&mut self, given: &Given, end: End, answer: &Answer<Vec<End>>) {
        let expected = add_reply(answer);
        self.tally.count("calls: add", "add", expected.number);
        self.put(&given.arrays);
        let [lines, starts, eols] = self.lent(&given.arrays);
        let register = RegisterMut {
            count: given.count,
            lines,
            starts,
            eols,
        };
        let got = beside::add_line_end(register, entries(end));
        let input = (given, end);
        if got != expected {
            self.tally.differ("add", &input, &expected, &got);
        }
        let mut after = given.arrays.clone();
        if answer.is_ok() {
            let (line, start, eol) = entries(end);
            for (array, number) in after.iter_mut().zip([line, start, eol]) {
                array[given.count] = number;
            }
        }
        if !self.holds(&after) {
            self.tally.differ("the register", &input, &(), &());
        }
    }

    /// An array that is not the register's size, or a count past it.
    fn contradictory(&mut self, mut given: Given, numbers: &Numbers) {
        let rng = &mut self.rng;
        if rng.once_in(3) {
            given.count = rng.pick(&[limits::REGISTER + 1, 65_536, usize::MAX]);
        } else {
            let shorter = rng.shorter(limits::REGISTER);
            let length = rng.pick(&[shorter, shorter, limits::REGISTER + 1, 2_000]);
            given.arrays[rng.below(3)].resize(length, 1);
        }
        let (place, end) = (numbers.asked(rng), numbers.end(rng, 2));
        self.find(&given, place, refuse(13, 0));
        self.add(&given, end, &refuse(13, 0));
    }

    /// An end remapped by a few fragments, or as many as the register has ends.
    fn remap(&mut self, numbers: &Numbers, most: usize) {
        let rng = &mut self.rng;
        let count = match rng.below(4) {
            0 => most,
            _ => rng.below(6),
        };
        let (_, start, eol) = any_end(rng, numbers, 2);
        let line = match rng.below(12) {
            0 => rng.pick(&FAR),
            1 => count + 1,
            _ => rng.between(usize::from(count > 0), count),
        };
        let fragment = |_| {
            let byte = match rng.below(4) {
                0 => rng.pick(&FAR),
                // The eol comes to the limit, or one below or past it.
                1 => (limits::REGISTER_NUMBER - 1 + rng.below(3)).saturating_sub(eol),
                _ => rng.below(600),
            };
            let line = match rng.below(8) {
                0 => rng.pick(&FAR),
                _ => rng.below(limits::REGISTER_NUMBER + 1),
            };
            (line, byte)
        };
        let fragments: Vec<(usize, usize)> = (0..count).map(fragment).collect();
        let end = (line, start, eol);
        let answer = ends::remap(end, &fragments);
        if let Ok(paper) = answer {
            let rust = grid_table::remap(end, &fragments);
            if rust != paper {
                self.tally
                    .differ("the oracles disagree", &(end, &fragments), &rust, &paper);
            }
        }
        let (lines, bytes): (Vec<usize>, Vec<usize>) = fragments.into_iter().unzip();
        let array = |numbers: Vec<usize>| numbers.into_iter().map(entry).collect();
        let mut given = Given {
            count,
            arrays: [array(lines), array(bytes), vec![]],
        };
        self.remap_call("calls: remap", &given, end, answer);
        match self.rng.below(12) {
            0 => {
                given.count = self
                    .rng
                    .pick(&[count + 1, usize::MAX, count.wrapping_sub(1)])
            }
            1 => given.arrays[self.rng.below(2)].push(1),
            2 if count > 0 => drop(given.arrays[self.rng.below(2)].pop()),
            _ => return,
        }
        let kind = "calls: remap, contradictory sizes";
        self.remap_call(kind, &given, end, refuse(13, 0));
    }

    fn remap_call(&mut self, kind: &'static str, given: &Given, end: End, answer: Answer<End>) {
        let expected = remap_reply(answer);
        self.tally.count(kind, "remap", expected.number);
        self.put(&given.arrays);
        let [lines, bytes, _] = self.lent(&given.arrays);
        let fragments = Fragments {
            count: given.count,
            lines,
            bytes,
        };
        let got = beside::remap_line_end(fragments, entries(end));
        let input = (&given.arrays, given.count, end);
        if got != expected {
            self.tally.differ("remap", &input, &expected, &got);
        }
        if !self.holds(&given.arrays) {
            self.tally
                .differ("the fragments were written to", &input, &(), &());
        }
    }

    fn put(&mut self, arrays: &[Vec<u32>; 3]) {
        for (lent, array) in self.arrays.iter_mut().zip(arrays) {
            lent.put(array);
        }
    }

    fn lent(&mut self, arrays: &[Vec<u32>; 3]) -> [&mut [u32]; 3] {
        let [a, b, c] = &mut self.arrays;
        [
            a.entries(arrays[0].len()),
            b.entries(arrays[1].len()),
            c.entries(arrays[2].len()),
        ]
    }

    fn holds(&mut self, arrays: &[Vec<u32>; 3]) -> bool {
        let mut pairs = self.arrays.iter_mut().zip(arrays);
        pairs.all(|(lent, array)| lent.holds(array))
    }
}
