//! Drawings: painted tilings, damaged copies, small random ones, and ones at
//! the limits.

use super::text::{self, Kind};
use super::{Rng, edge, tiling};
use crate::limits;
use crate::sheet::Sheet;
use crate::table::Place;

pub type Lines = Vec<(Vec<u8>, usize)>;

/// A drawing of any kind.
pub fn sheet(rng: &mut Rng) -> Sheet {
    match rng.below(100) {
        0..=54 => Sheet::of(&painted(rng)),
        55..=74 => {
            let mut lines = painted(rng);
            for _ in 0..rng.between(1, 2) {
                damage(rng, &mut lines);
            }
            Sheet::of(&lines)
        }
        75..=79 => Sheet::of(&stretched(rng)),
        80..=95 => Sheet::of(&small(rng)),
        96..=98 => wrong_sizes(rng),
        _ => at_limit(rng),
    }
}

/// A number and a table byte for each line, at times past the limit.
pub fn places(rng: &mut Rng, lines: usize) -> (Vec<usize>, Vec<usize>) {
    let first = rng.below(3);
    let numbers = (0..lines).map(|r| first + r).collect();
    let most = rng.pick(&[0, 4, limits::REGISTER_NUMBER]);
    let mut bytes: Vec<usize> = (0..lines).map(|_| rng.between(0, most)).collect();
    if rng.once_in(50)
        && let Some(last) = bytes.last_mut()
    {
        *last = limits::REGISTER_NUMBER + 1;
    }
    (numbers, bytes)
}

/// A drawing within the limits, most often a valid one.
pub fn painted(rng: &mut Rng) -> Lines {
    let rows = rng.between(1, 5);
    let columns = rng.between(1, 5);
    let spans = !rng.once_in(4);
    let places = tiling::tiling(rng, rows, columns, spans);
    let (rows, columns) = tiling::size(&places);
    let least = if rng.once_in(6) { 1 } else { 2 };
    let xs = edges(rng, columns, least, 7);
    let ys = edges(rng, rows, 1, 4);
    let kind = text::kind(rng);
    paint(rng, &places, &xs, &ys, kind)
}

fn edges(rng: &mut Rng, count: usize, least: usize, most: usize) -> Vec<usize> {
    let mut edges = vec![0];
    for i in 0..count {
        edges.push(edges[i] + rng.between(least, most));
    }
    edges
}

/// The tiling drawn on these column and row lines, with separators, colons
/// and text.
#[allow(clippy::needless_range_loop)]
fn paint(rng: &mut Rng, places: &[Place], xs: &[usize], ys: &[usize], kind: Kind) -> Lines {
    let (width, height) = (xs[xs.len() - 1] + 1, ys[ys.len() - 1] + 1);
    // A blank slot is inside a cell.
    let mut signs = vec![vec![b' '; width]; height];
    for p in places {
        let (top, bottom) = (ys[p.row], ys[p.row + p.rowspan]);
        let (left, right) = (xs[p.column], xs[p.column + p.colspan]);
        for y in top..=bottom {
            for x in left..=right {
                let side = x == left || x == right;
                let level = y == top || y == bottom;
                let sign = match (side, level) {
                    (true, true) => b'+',
                    (true, false) => b'|',
                    (false, true) => b'-',
                    (false, false) => continue,
                };
                if signs[y][x] != b'+' {
                    signs[y][x] = sign;
                }
            }
        }
    }

    let free = tiling::free_lines(places);
    let mut separators: Vec<usize> = vec![];
    if rng.once_in(2) {
        separators = free.into_iter().filter(|_| rng.once_in(2)).collect();
        separators.retain(|&r| r > 0);
    }
    for &r in &separators {
        for sign in &mut signs[ys[r]] {
            if *sign == b'-' {
                *sign = b'=';
            }
        }
    }
    if rng.once_in(2) {
        let line = separators.first().map_or(0, |&r| ys[r]);
        add_colons(rng, &mut signs[line]);
    }

    let origin = rng.pick(&[0, 0, 1, 2, 3, 4, 7, 252, 255]);
    let varied = rng.once_in(8);
    let mut lines = vec![];
    for row in &signs {
        let column = if varied { rng.below(256) } else { origin };
        let mut line = fill(rng, row, column, kind);
        if rng.once_in(20) {
            line.extend(rng.pick(&[" ", "\t", "  \t "]).bytes());
        }
        lines.push((line, column));
    }
    lines
}

/// Colons at ends of segments that leave room for a fill byte.
fn add_colons(rng: &mut Rng, row: &mut [u8]) {
    let corners: Vec<usize> = (0..row.len()).filter(|&x| row[x] == b'+').collect();
    for pair in corners.windows(2) {
        let mut room = pair[1] - pair[0] - 1;
        for x in [pair[0] + 1, pair[1] - 1] {
            if room > 1 && rng.once_in(3) {
                row[x] = b':';
                room -= 1;
            }
        }
    }
}

/// The row with text in its blank slots.
fn fill(rng: &mut Rng, row: &[u8], column: usize, kind: Kind) -> Vec<u8> {
    let mut line = vec![];
    let mut x = 0;
    while x < row.len() {
        if row[x] != b' ' {
            line.push(row[x]);
            x += 1;
            continue;
        }
        let end = (x..row.len()).find(|&i| row[i] != b' ').unwrap();
        line.extend(text::filling(rng, kind, column + x, end - x).bytes());
        x = end;
    }
    line
}

/// One change: a byte, a line, a column.
pub fn damage(rng: &mut Rng, lines: &mut Lines) {
    if lines.is_empty() {
        return;
    }
    let r = rng.below(lines.len());
    let length = lines[r].0.len();
    let at = rng.below(length + 1);
    let sign = rng.pick(b"+-|=: x\t");
    match rng.below(12) {
        0..=3 if at < length => lines[r].0[at] = sign,
        4 if at < length => drop(lines[r].0.remove(at)),
        5 => lines[r].0.insert(at, sign),
        6 => drop(lines.remove(r)),
        7 => lines.insert(r, lines[r].clone()),
        8 => lines[r].1 = rng.below(258),
        9 => {
            let c = text::outside(rng).to_string();
            lines[r].0.splice(at..at, c.bytes());
        }
        10 => {
            let bytes = rng.pick(&text::BROKEN);
            lines[r].0.splice(at..at, bytes.iter().copied());
        }
        11 => lines[r].0.truncate(at),
        _ => {}
    }
}

/// One of the papers' own drawings with columns and lines doubled, so that it
/// keeps its shape.
fn stretched(rng: &mut Rng) -> Lines {
    let sheets = edge::small_sheets();
    let mut lines: Vec<Vec<u8>> = rng
        .pick(&sheets)
        .iter()
        .map(|l| l.bytes().collect())
        .collect();
    for _ in 0..rng.between(0, 4) {
        let x = rng.between(1, lines[0].len() - 1);
        if lines[0][x] == b'+' || lines.iter().any(|line| line.len() <= x) {
            continue;
        }
        for line in &mut lines {
            line.insert(x, line[x]);
        }
    }
    for _ in 0..rng.between(0, 2) {
        let r = rng.below(lines.len());
        lines.insert(r, lines[r].clone());
    }
    let mut lines: Lines = lines.into_iter().map(|line| (line, 0)).collect();
    if rng.once_in(3) {
        damage(rng, &mut lines);
    }
    lines
}

/// A few short lines over few signs; the first is a rule, and the sides are
/// most often borders.
fn small(rng: &mut Rng) -> Lines {
    let width = rng.between(2, 8);
    let height = rng.between(1, 7);
    let signs: &[u8] = rng.pick(&[&b"+-|"[..], b"++-|", b"+++-||=: x"]);
    let mut lines = vec![];
    for r in 0..height {
        let ends = r == 0 || r + 1 == height;
        let mut line: Vec<u8> = (0..width).map(|_| rng.pick(signs)).collect();
        if r == 0 || rng.once_in(if ends { 2 } else { 5 }) {
            let fill = if r > 0 && rng.once_in(3) { b'=' } else { b'-' };
            line = rule(rng, width, fill);
        }
        if !rng.once_in(30) {
            line[0] = if ends || rng.once_in(2) { b'+' } else { b'|' };
            line[width - 1] = if ends || rng.once_in(2) { b'+' } else { b'|' };
        }
        lines.push((line, 0));
    }
    lines
}

/// A line of the fill byte with some corners, no two of them side by side,
/// and sometimes a colon.
fn rule(rng: &mut Rng, width: usize, fill: u8) -> Vec<u8> {
    let mut line = vec![fill; width];
    let mut x = 2;
    while x + 2 < width {
        if rng.once_in(2) {
            line[x] = b'+';
            x += 1;
        }
        x += 1;
    }
    if rng.once_in(6) {
        let at = rng.below(width);
        line[at] = b':';
    }
    line
}

/// Sizes that the arrays contradict.
fn wrong_sizes(rng: &mut Rng) -> Sheet {
    let mut sheet = Sheet::of(&painted(rng));
    match rng.below(7) {
        0 => sheet.lines += 1,
        1 => sheet.bytes += 1,
        2 => drop(sheet.columns.pop()),
        3 => sheet.lengths.push(0),
        4 => sheet.lengths[0] += 1,
        5 => drop(sheet.text.pop()),
        _ => {
            // Two lengths whose sum wraps round to the right one.
            let first = sheet.lengths[0];
            sheet.lengths[0] = usize::MAX;
            sheet.lengths[1] = sheet.lengths[1].wrapping_add(first).wrapping_add(1);
        }
    }
    sheet
}

/// A plain grid of equal cells.
pub fn even(columns: usize, rows: usize, width: usize, height: usize) -> Lines {
    let rule = format!("+{}", format!("{}+", "-".repeat(width)).repeat(columns));
    let inner = format!("|{}", format!("{}|", " ".repeat(width)).repeat(columns));
    let mut lines = vec![(rule.clone().into_bytes(), 0)];
    for _ in 0..rows {
        for _ in 0..height {
            lines.push((inner.clone().into_bytes(), 0));
        }
        lines.push((rule.clone().into_bytes(), 0));
    }
    lines
}

/// One just below, at, or just past each limit.
fn at_limit(rng: &mut Rng) -> Sheet {
    let over = rng.below(2);
    let lines = match rng.below(12) {
        0 => vec![],
        1 => even(1, 1, 1, 126 + over),
        2 => even(1, 127 + over, 1, 0),
        3 => even(1, 1, 126 + over, 1),
        4 => even(42, 1, 2, 1),
        5 => {
            let mut lines = even(2, 1, 3, 1);
            let r = rng.below(3);
            let length = lines[r].0.len();
            lines[r].0.extend(vec![b' '; 512 + over - length]);
            lines
        }
        6 => {
            let mut lines = even(1, 1, 5, 126);
            for line in &mut lines {
                line.0.resize(256, b' ');
            }
            lines[0].0.resize(256 + over, b' ');
            lines
        }
        7 => {
            let mut lines = even(1, 1, 5, 1);
            lines[1].1 = 255 + over;
            lines
        }
        8 => even(32 + over, 32, 1, 1),
        9 => {
            // 1,024 rectangles, and then one more or something untraceable.
            let mut lines = even(32, 32, 1, 1);
            lines.push((format!("|{}|", " ".repeat(63)).into_bytes(), 0));
            let last = if over == 1 { "-" } else { " " };
            lines.push((format!("+{}+", last.repeat(63)).into_bytes(), 0));
            lines
        }
        10 => {
            let mut lines = even(1, 1, 2, 1);
            let marks = (512 - 4) / 2 + over;
            lines[1].0.splice(2..2, "\u{301}".repeat(marks).bytes());
            lines
        }
        _ => {
            let bytes = if over == 1 { b"+".to_vec() } else { vec![] };
            vec![(bytes, 0); rng.between(1, 3)]
        }
    };
    Sheet::of(&lines)
}
