//! Document 01 read a second time, in plain code: what each call answers, with
//! refusal number and place, from its flat arguments; and `make`, inputs from a
//! seed. It needs neither the Rust nor the proved library.

pub mod cut;
pub mod draw;
pub mod ends;
pub mod flat;
pub mod flat_page;
pub mod layout;
pub mod limits;
pub mod listing;
pub mod make;
pub mod page;
pub mod positions;
pub mod redraw;
pub mod set;
pub mod sheet;
pub mod table;

#[derive(Clone, Copy, PartialEq, Eq, Debug)]
pub struct Refusal {
    pub number: usize,
    pub place: usize,
}

pub type Answer<T> = Result<T, Refusal>;

pub fn refuse<T>(number: usize, place: usize) -> Answer<T> {
    Err(Refusal { number, place })
}

/// 13 where a demand on the arguments fails.
pub fn demand(holds: bool) -> Answer<()> {
    if holds { Ok(()) } else { refuse(13, 0) }
}

/// 2 where a number passes its limit.
pub fn within(number: usize, limit: usize) -> Answer<()> {
    if number <= limit {
        Ok(())
    } else {
        refuse(2, 0)
    }
}

/// 12 where an output array is shorter than its result.
pub fn room(space: usize, need: usize) -> Answer<()> {
    if need <= space { Ok(()) } else { refuse(12, 0) }
}

/// The sum of an array, or none where it does not fit a number.
pub fn sum(numbers: &[usize]) -> Option<usize> {
    numbers.iter().try_fold(0usize, |a, &b| a.checked_add(b))
}
