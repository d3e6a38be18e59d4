//! The cases of line ends: adding, finding and remapping, each refusal and each
//! two that can meet, the limits of numbers and of registers, and ends of every
//! kind.

use super::runs;
use crate::beside::ends::{FAR as FAR_NUMBERS, any_end, any_place, entry};
use crate::lists::{FAR, List, refused};
use crate::make::Rng;
use crate::make::ends::Numbers;
use crate::paper::ends::{self, End};
use crate::paper::{Answer, limits, refuse};
use crate::parser::grid_table;

pub fn cases(list: &mut List) {
    adds(list);
    finds(list);
    remaps(list);
    registers(list);
    let mut rng = Rng::new(16);
    for _ in 0..90 {
        generated(list, &mut rng);
    }
}

/// A register as it is lent: how many ends it holds, and lines, starts and eols.
#[derive(Clone)]
struct Register {
    count: usize,
    arrays: [Vec<u32>; 3],
}

impl Register {
    /// Holds these ends; its other entries are `rest`.
    fn of(held: &[End], rest: End) -> Register {
        let mut all = held.to_vec();
        all.resize(limits::REGISTER, rest);
        let array = |pick: fn(&End) -> usize| all.iter().map(|end| entry(pick(end))).collect();
        Register {
            count: held.len(),
            arrays: [array(|end| end.0), array(|end| end.1), array(|end| end.2)],
        }
    }

    /// The ends that count; 13 where the arrays are not a register's.
    fn held(&self) -> Answer<Vec<End>> {
        let sized = self.arrays.iter().all(|a| a.len() == limits::REGISTER);
        if !sized || self.count > limits::REGISTER {
            return refuse(13, 0);
        }
        let number = |array: &Vec<u32>, i: usize| array[i] as usize;
        let [lines, starts, eols] = &self.arrays;
        let end = |i: usize| (number(lines, i), number(starts, i), number(eols, i));
        Ok((0..self.count).map(end).collect())
    }

    fn fields(&self) -> String {
        let [lines, starts, eols] = &self.arrays;
        format!(
            "{} {} {} {}",
            self.count,
            runs(lines),
            runs(starts),
            runs(eols)
        )
    }
}

impl List {
    /// The second reading's answer, and the arrays afterwards: the Rust's vector
    /// takes any end.
    fn add_end(&mut self, register: &Register, end: End) {
        let (line, start, eol) = end;
        let case = format!("a {line} {start} {eol} {}", register.fields());
        let mut after = register.clone();
        let answer = match register.held().and_then(|held| ends::add(&held, end)) {
            Ok(longer) => {
                after = Register::of(&longer, (0, 0, 0));
                for (array, before) in after.arrays.iter_mut().zip(&register.arrays) {
                    array[longer.len()..].copy_from_slice(&before[longer.len()..]);
                }
                format!("accepted {}", longer.len())
            }
            Err(refusal) => refused(refusal),
        };
        let arrays = after.arrays.map(|array| runs(&array));
        self.add(case, format!("{answer} {}", arrays.join(" ")));
    }

    /// The Rust's end, by a soft break and by a hard one.
    fn find_end(&mut self, register: &Register, (line, column): (usize, usize)) {
        let case = format!("f {line} {column} {}", register.fields());
        let found = register.held().and_then(|held| {
            let found = ends::find(&held, line, column)?;
            let rust = grid_table::find_line_ends(&held, &[(line, column)])[0];
            assert_eq!(rust, [found; 2]);
            Ok(found)
        });
        let answer = match found {
            Ok(Some(eol)) => format!("found {eol}"),
            Ok(None) => "none".to_string(),
            Err(refusal) => refused(refusal),
        };
        self.add(case, answer);
    }

    /// The Rust's end. The lines and the bytes of fragments may be more or fewer
    /// than their number, which is a 13.
    fn remap_end(&mut self, end: End, count: usize, lines: &[u32], bytes: &[u32]) {
        let (line, start, eol) = end;
        let (lines_field, bytes_field) = (runs(lines), runs(bytes));
        let case = format!("m {line} {start} {eol} {count} {lines_field} {bytes_field}");
        let remapped = if lines.len() == count && bytes.len() == count {
            let both = lines.iter().zip(bytes);
            let fragments: Vec<(usize, usize)> =
                both.map(|(&l, &b)| (l as usize, b as usize)).collect();
            ends::remap(end, &fragments).inspect(|&to| {
                assert_eq!(grid_table::remap(end, &fragments), to);
            })
        } else {
            refuse(13, 0)
        };
        let answer = match remapped {
            Ok((line, start, eol)) => format!("accepted {line} {start} {eol}"),
            Err(refusal) => refused(refusal),
        };
        self.add(case, answer);
    }
}

/// The limit and one past it.
const MOST: usize = limits::REGISTER_NUMBER;
const PAST: usize = MOST + 1;

/// Each refusal of an end; 13 and 2 at once.
const ENDS: [End; 20] = [
    (1, 1, 1),
    (7, 3, 9),
    (MOST, 1, 1),
    (1, 1, MOST),
    (MOST, MOST, MOST),
    (0, 1, 1),
    (1, 0, 1),
    (1, 0, 0),
    (1, 2, 1),
    (1, 1, 0),
    (1, MOST, MOST - 1),
    (PAST, 1, 1),
    (1, 1, PAST),
    (1, PAST, PAST),
    (u32::MAX as usize, 1, 1),
    (1, 1, u32::MAX as usize),
    (0, 1, PAST),
    (PAST, 0, 1),
    (PAST, 2, 1),
    (1, PAST, MOST),
];

/// Ends in no order: two that start alike, one inside another, one on another
/// line, one of a single column, and two that adding would refuse.
const HELD: [End; 9] = [
    (2, 4, 9),
    (2, 4, 6),
    (1, 4, 9),
    (2, 1, 20),
    (2, 12, 12),
    (2, 15, 14),
    (0, 4, 9),
    (2, 8, 8),
    (2, 4, 7),
];

/// A register of so many ends, on lines 1 to 3.
fn full(count: usize) -> Register {
    let held: Vec<End> = (0..count).map(|i| (1 + i / 400, 5, 8)).collect();
    Register::of(&held, (3, 5, 9))
}

fn adds(list: &mut List) {
    for end in ENDS {
        list.add_end(&Register::of(&HELD, (2, 4, 9)), end);
        // 13 and 14, 2 and 14.
        list.add_end(&full(limits::REGISTER), end);
    }
    for count in [0, 1, 2, 512, 1_022, 1_023, 1_024] {
        list.add_end(&full(count), (9, 1, 2));
    }
}

fn finds(list: &mut List) {
    let held = Register::of(&HELD, (2, 10, 30));
    for line in 0..4 {
        for column in 0..=21 {
            list.find_end(&held, (line, column));
        }
    }
    // Backwards, the same is found.
    let mut backwards = HELD;
    backwards.reverse();
    for column in 1..=16 {
        list.find_end(&Register::of(&backwards, (0, 0, 0)), (2, column));
    }
    let limit = Register::of(&[(MOST, MOST, MOST), (1, 1, PAST)], (1, 1, 1));
    for line in [0, 1, MOST, PAST, u32::MAX as usize] {
        for column in [0, 1, MOST, PAST, u32::MAX as usize] {
            list.find_end(&limit, (line, column));
            list.find_end(&full(0), (line, column));
        }
    }
    for count in [0, 1, 2, 1_022, 1_023, 1_024] {
        for place in [(1, 5), (3, 5), (3, 8), (3, 9)] {
            list.find_end(&full(count), place);
        }
    }
}

fn remaps(list: &mut List) {
    let fragments = (&[7, 0, 65_535, 9], &[4, 0, 65_530, 65_535]);
    for end in ENDS {
        list.remap_end(end, 4, fragments.0, fragments.1);
        list.remap_end(end, 0, &[], &[]);
    }
    for line in 0..=5 {
        for (start, eol) in [(1, 1), (1, 5), (5, 6), (6, 6)] {
            list.remap_end((line, start, eol), 4, fragments.0, fragments.1);
        }
    }
    // The fragment's own numbers at the limit and past it.
    for number in [MOST - 5, MOST - 4, MOST, PAST, u32::MAX as usize] {
        list.remap_end((1, 1, 5), 1, &[entry(number)], &[0]);
        list.remap_end((1, 1, 5), 1, &[1], &[entry(number)]);
        list.remap_end((2, 1, 5), 2, &[entry(number), 3], &[entry(number), 3]);
    }
    // 13 and 2: a line past the fragments and past the limit, sizes and numbers.
    for count in [0, 3, 5, FAR] {
        list.remap_end((1, 1, 1), count, fragments.0, fragments.1);
        list.remap_end((1, 1, PAST), count, fragments.0, fragments.1);
    }
    list.remap_end((1, 1, 1), 4, &fragments.0[..3], fragments.1);
    list.remap_end((1, 1, 1), 4, fragments.0, &fragments.1[..3]);
    list.remap_end((1, 1, 1), 1, &[], &[1]);
    list.remap_end((1, 1, 1), 1, &[1], &[]);
    list.remap_end((1_024, 1, 1), 1_024, &[8; 1_024], &[9; 1_024]);
    list.remap_end((1_500, 1, 1), 1_500, &[8; 1_500], &[9; 1_500]);
    list.remap_end((1_501, 1, 1), 1_500, &[8; 1_500], &[9; 1_500]);
}

/// 13: a count past the register, and each array one short, empty, and longer;
/// before 2 and 14.
fn registers(list: &mut List) {
    for full in [full(3), full(limits::REGISTER)] {
        for count in [limits::REGISTER + 1, 65_536, FAR] {
            let mut register = full.clone();
            register.count = count;
            both(list, &register);
        }
        for i in 0..3 {
            for length in [limits::REGISTER - 1, 0, limits::REGISTER + 1, 2_000] {
                let mut register = full.clone();
                register.arrays[i].resize(length, 1);
                both(list, &register);
            }
        }
    }
}

fn both(list: &mut List, register: &Register) {
    list.add_end(register, (1, 1, 1));
    list.add_end(register, (1, 1, PAST));
    list.find_end(register, (1, 5));
    list.find_end(register, (PAST, 5));
}

/// A register of a few ends, now and then one that is full or nearly so.
fn generated(list: &mut List, rng: &mut Rng) {
    let numbers = Numbers::new(rng);
    let lines = rng.pick(&[1, 2, 3]);
    let held: Vec<End> = if rng.once_in(24) {
        let count = limits::REGISTER - rng.below(2);
        let few = |_| (rng.between(1, 2), rng.between(1, 5), rng.between(4, 9));
        (0..count).map(few).collect()
    } else {
        let count = rng.between(0, 12);
        (0..count).map(|_| any_end(rng, &numbers, lines)).collect()
    };
    let register = Register::of(&held, (1, 1, 9));
    list.add_end(&register, any_end(rng, &numbers, lines));
    for _ in 0..2 {
        list.find_end(&register, any_place(rng, &numbers, &held));
    }
    let fragments = rng.between(1, 5);
    let number = |rng: &mut Rng| match rng.below(4) {
        0 => entry(rng.pick(&FAR_NUMBERS)),
        _ => entry(rng.below(600)),
    };
    let fragment_lines: Vec<u32> = (0..fragments).map(|_| number(rng)).collect();
    let bytes: Vec<u32> = (0..fragments).map(|_| number(rng)).collect();
    let (_, start, eol) = any_end(rng, &numbers, 1);
    let line = match rng.below(12) {
        0 => 0,
        1 => fragments + 1,
        _ => rng.between(1, fragments),
    };
    list.remap_end((line, start, eol), fragments, &fragment_lines, &bytes);
}
