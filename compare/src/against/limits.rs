//! Drawings one below, at and one past each limit, and sizes that the arrays
//! contradict.

use crate::make::Rng;
use crate::make::sheets::{self, Lines, even};
use crate::paper::limits;
use crate::paper::sheet::Sheet;

/// One below, at, or one past.
fn near(rng: &mut Rng, limit: usize) -> usize {
    limit - 1 + rng.below(3)
}

pub fn sheet(rng: &mut Rng) -> Sheet {
    let mut lines = match rng.below(14) {
        0 => even(rng.between(1, 3), 1, 2, near(rng, limits::LINES) - 2),
        1 => even(1, near(rng, limits::LINES) - 1, 1, 0),
        2 => even(1, 1, near(rng, limits::WIDTH) - 2, rng.between(0, 3)),
        3 => even(near(rng, 64), 1, 1, 1),
        4 => long_line(rng),
        5 => many_bytes(rng),
        6 => far_column(rng),
        7 => cells(rng, 32, 32),
        8 => cells(rng, 33, 31),
        9 => cells(rng, 63, 16),
        10 => full(rng),
        11 => marks(rng),
        12 => wide(rng),
        _ => tabs(rng),
    };
    for _ in 0..rng.below(3) {
        sheets::damage(rng, &mut lines);
    }
    Sheet::of(&lines)
}

/// A line of about 512 bytes, by blanks that are trimmed or not.
fn long_line(rng: &mut Rng) -> Lines {
    let mut lines = even(2, 2, 3, 1);
    let r = rng.below(lines.len());
    let length = near(rng, limits::LINE_BYTES);
    let blank = rng.pick(b" \t");
    lines[r].0.resize(length, blank);
    if rng.once_in(4) {
        *lines[r].0.last_mut().unwrap() = b'x';
    }
    lines
}

/// About 32,768 bytes in all.
fn many_bytes(rng: &mut Rng) -> Lines {
    let mut lines = even(1, 1, 5, 62);
    for line in &mut lines {
        line.0.resize(limits::LINE_BYTES, b' ');
    }
    let r = rng.below(lines.len());
    match rng.below(3) {
        0 => drop(lines[r].0.pop()),
        1 => {}
        _ => lines[r].0.push(b' '),
    }
    lines
}

fn far_column(rng: &mut Rng) -> Lines {
    let mut lines = even(2, 2, 3, 1);
    let r = rng.below(lines.len());
    lines[r].1 = rng.pick(&[254, 255, 256, 65_535]);
    lines
}

/// About 1,024 cells, then sometimes one more line of cells or something
/// untraceable.
fn cells(rng: &mut Rng, columns: usize, rows: usize) -> Lines {
    let mut lines = even(columns, rows, 1, usize::from(rows < 63));
    let inner = 2 * columns - 1;
    if rng.once_in(2) && lines.len() < limits::LINES {
        let fill = rng.pick(&["-", " ", "="]);
        lines.push((format!("|{}|", " ".repeat(inner)).into_bytes(), 0));
        lines.push((format!("+{}+", fill.repeat(inner)).into_bytes(), 0));
    }
    lines
}

/// 128 lines by 128 columns.
fn full(rng: &mut Rng) -> Lines {
    let (columns, rows) = (rng.pick(&[1, 2, 16, 31]), rng.pick(&[1, 2, 16, 31]));
    let mut lines = even(columns, rows, 128 / columns - 1, 128 / rows - 1);
    lines.truncate(limits::LINES - 1);
    let widest = lines[0].0.len().min(limits::WIDTH);
    for line in &mut lines {
        line.0.truncate(widest - 1);
        line.0.push(if line.0[0] == b'+' { b'+' } else { b'|' });
    }
    let rule = lines[0].clone();
    lines.push(rule);
    lines
}

/// Marks up to about 512 bytes.
fn marks(rng: &mut Rng) -> Lines {
    let mut lines = even(1, 1, 2, 2);
    let more = rng.below(3);
    lines[1].0.splice(2..2, "\u{301}".repeat(253).bytes());
    lines[1].0.splice(1..1, vec![b' '; more]);
    lines
}

/// Wide characters up to about the width.
fn wide(rng: &mut Rng) -> Lines {
    let columns = near(rng, limits::WIDTH);
    let mut lines = even(1, 1, columns - 2, 1);
    let mut text = "\u{4E2D}".repeat((columns - 2) / 2);
    if rng.once_in(2) {
        text += " ";
    }
    lines[1].0 = format!("|{text}|").into_bytes();
    lines
}

/// Tabs at any line column.
fn tabs(rng: &mut Rng) -> Lines {
    let mut lines = even(1, 1, 8, 1);
    let tabs = rng.between(1, 3);
    lines[1].0 = format!("|{}{}|", "\t".repeat(tabs), " ".repeat(rng.below(8))).into_bytes();
    lines[1].1 = rng.below(256);
    lines
}

/// Sizes, lengths, columns and text that contradict each other; sometimes
/// they still agree.
pub fn contradictory(rng: &mut Rng) -> Sheet {
    let mut sheet = Sheet::of(&sheets::painted(rng));
    let far = rng.pick(&[0, 1, 128, 65_536, usize::MAX / 2, usize::MAX]);
    for _ in 0..rng.between(1, 2) {
        let r = rng.below(sheet.lengths.len().max(1));
        match rng.below(14) {
            0 => sheet.lines = sheet.lines.wrapping_add(1),
            1 => sheet.lines = sheet.lines.saturating_sub(1),
            2 => sheet.lines = far,
            3 => sheet.bytes = sheet.bytes.wrapping_add(1),
            4 => sheet.bytes = sheet.bytes.saturating_sub(1),
            5 => sheet.bytes = far,
            6 => drop(sheet.columns.pop()),
            7 => sheet.columns.push(0),
            8 => drop(sheet.lengths.pop()),
            9 => sheet.lengths.push(0),
            10 => drop(sheet.text.pop()),
            11 => sheet.text.push(b' '),
            12 if r < sheet.lengths.len() => sheet.lengths[r] = (sheet.lengths[r] + 1) % 65_536,
            13 if r < sheet.lengths.len() => sheet.lengths[r] = 65_535,
            _ => {}
        }
    }
    sheet
}
