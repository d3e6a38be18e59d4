//! The line-end register: adding, finding and remapping.

use super::{Answer, demand, limits, refuse, within};

/// Line, start and eol.
pub type End = (usize, usize, usize);

fn check_end((line, start, eol): End) -> Answer<()> {
    demand(line > 0 && start > 0 && start <= eol)
}

fn within_register((line, start, eol): End) -> Answer<()> {
    within(line, limits::REGISTER_NUMBER)?;
    within(start, limits::REGISTER_NUMBER)?;
    within(eol, limits::REGISTER_NUMBER)
}

/// The register with one more end.
pub fn add(register: &[End], end: End) -> Answer<Vec<End>> {
    demand(register.len() <= limits::REGISTER)?;
    check_end(end)?;
    within_register(end)?;
    if register.len() == limits::REGISTER {
        return refuse(14, 0);
    }
    let mut register = register.to_vec();
    register.push(end);
    Ok(register)
}

pub fn find(register: &[End], line: usize, column: usize) -> Answer<Option<usize>> {
    demand(register.len() <= limits::REGISTER)?;
    demand(line > 0 && column > 0)?;
    within(line, limits::REGISTER_NUMBER)?;
    within(column, limits::REGISTER_NUMBER)?;
    let mut holding: Vec<(usize, usize)> = register
        .iter()
        .filter(|end| end.0 == line && end.1 <= column && column <= end.2)
        .map(|end| (end.1, end.2))
        .collect();
    holding.sort();
    Ok(holding.last().map(|end| end.1))
}

/// `fragments` have each fragment's line and byte.
pub fn remap(end: End, fragments: &[(usize, usize)]) -> Answer<End> {
    check_end(end)?;
    demand(end.0 <= fragments.len())?;
    within_register(end)?;
    let (line, byte) = fragments[end.0 - 1];
    within(byte, limits::REGISTER_NUMBER)?;
    let moved = (line, byte + end.1, byte + end.2);
    within_register(moved)?;
    Ok(moved)
}
