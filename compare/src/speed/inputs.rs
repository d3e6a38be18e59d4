//! The drawings that are timed.

use crate::make::sheets::{Lines, even};

pub fn all() -> Vec<(String, Lines)> {
    let mut all: Vec<(String, Lines)> = vec![];
    let mut add = |name: &str, lines: Lines| all.push((name.to_string(), lines));
    add("price list of 20 rows", price_list(20, "Article"));
    add(
        "price list with accents",
        price_list(20, "Stylo bille \u{E9}t\u{E9}"),
    );
    add("one-line cells, full size", full_size());
    add("1,024 cells, smallest", even(32, 32, 1, 1));
    add("1,024 cells, full size", many_cells());
    add("one cell, full size", even(1, 1, 126, 126));
    add("tall spans", tall_spans());
    add("wide spans", wide_spans());
    add("stairs: few columns a level", stairs());
    add("one long search: false corners", combs());
    add("every line a separator", separators());
    add("two-column characters, full size", wide_text());
    add("accented letters, full size", accents());
    add("marks up to 512 bytes a line", marks());
    add("tabs, full size", tabs());
    add("blanks up to 512 bytes a line", blanks());
    add("late refusal: 5 on the last line", late_width());
    add("late refusal: 6 at the last rectangle", late_trace());
    add("late refusal: 3 on the last line", late_character());
    add("early refusal: 5 on the second line", early_width());
    add("early refusal: 4 on the first line", first_line());
    add("smallest table", even(1, 1, 1, 0));
    for lines in [33, 65, 127] {
        add("growth with lines", even(16, lines / 2, 3, 1));
    }
    for columns in [8, 16, 31] {
        add("growth with width", even(columns, 32, 3, 1));
    }
    all
}

fn lines_of(text: Vec<String>) -> Lines {
    text.into_iter().map(|l| (l.into_bytes(), 0)).collect()
}

/// The last line's text, to be changed.
fn last(lines: &mut Lines) -> &mut Vec<u8> {
    &mut lines.last_mut().unwrap().0
}

fn rule(widths: &[usize], fill: &str) -> String {
    let mut line = "+".to_string();
    for &width in widths {
        line += &fill.repeat(width);
        line += "+";
    }
    line
}

fn inner(widths: &[usize], text: &str) -> String {
    let mut line = "|".to_string();
    for &width in widths {
        let part: String = text.chars().take(width).collect();
        line += &format!("{part:width$}|");
    }
    line
}

/// A head, then rows of article, amount and price.
fn price_list(rows: usize, name: &str) -> Lines {
    let widths = [26, 8, 10];
    let mut text = vec![
        "+--------------------------+-------:+---------:+".to_string(),
        "| Article                  | Amount | Price    |".to_string(),
        "+==========================+=======:+=========:+".to_string(),
    ];
    for row in 0..rows {
        let (article, price) = (format!("{name} {row}"), row * 137 + 95);
        text.push(format!("| {article:25}| {row:6} | {price:8} |"));
        text.push(rule(&widths, "-"));
    }
    lines_of(text)
}

/// 128 lines by 128 columns: 16 columns, 62 rows of one line and one of two.
fn full_size() -> Lines {
    let mut widths = vec![7; 15];
    widths.push(6);
    let mut text = vec![rule(&widths, "-")];
    for row in 0..63 {
        for _ in 0..1 + row / 62 {
            text.push(inner(&widths, " abc 12"));
        }
        text.push(rule(&widths, "-"));
    }
    lines_of(text)
}

/// 32 by 32 cells on 128 lines by 128 columns.
fn many_cells() -> Lines {
    let mut widths = vec![3; 31];
    widths.push(2);
    let mut text = vec![rule(&widths, "-")];
    for row in 0..32 {
        for _ in 0..3 - row / 31 {
            text.push(inner(&widths, " ab"));
        }
        text.push(rule(&widths, "-"));
    }
    lines_of(text)
}

/// A column of 63 rows, beside it 62 columns of one cell each.
fn tall_spans() -> Lines {
    let mut text = vec![rule(&[1; 63], "-")];
    for row in 0..63 {
        text.push(inner(&[1; 63], "x"));
        if row < 62 {
            text.push(format!("+-+{}", "x|".repeat(62)));
        }
    }
    text.push(rule(&[1; 63], "-"));
    lines_of(text)
}

/// A row of 63 columns, below it 62 rows of one cell each.
fn wide_spans() -> Lines {
    let mut text = vec![rule(&[1; 63], "-"), inner(&[1; 63], "x")];
    text.push(rule(&[1; 63], "-"));
    for _ in 0..62 {
        text.push(inner(&[125], "x"));
        text.push(rule(&[125], "-"));
    }
    lines_of(text)
}

/// Cells one column wide, each a line lower than the one before, so that each
/// level of the skyline has few columns.
fn stairs() -> Lines {
    // Column k has a border on each line y where y + k is a multiple of 9.
    let (columns, height) = (63, 127);
    let mut text = vec![rule(&vec![1; columns], "-")];
    for y in 1..height - 1 {
        let on = |k: usize| (y + k).is_multiple_of(9);
        let mut line = String::new();
        for x in 0..=2 * columns {
            let (k, side) = (x / 2, x.is_multiple_of(2));
            let here = k < columns && on(k);
            let before = k > 0 && on(k - 1);
            line.push(match (side, here, before) {
                (true, false, false) => '|',
                (true, _, _) => '+',
                (false, true, _) => '-',
                (false, false, _) => ' ',
            });
        }
        text.push(line);
    }
    text.push(rule(&vec![1; columns], "-"));
    lines_of(text)
}

/// Tops and sides full of corners that belong to no cell.
fn combs() -> Lines {
    let mut text = vec![rule(&[1; 63], "-")];
    for y in 1..126 {
        let left = if y % 2 == 0 { '+' } else { '|' };
        text.push(format!("{left}{}|", " ".repeat(125)));
    }
    text.push(rule(&[1; 63], "-"));
    lines_of(text)
}

fn separators() -> Lines {
    let widths = [14, 15, 15, 15, 15, 15, 15, 15];
    let mut text = vec![rule(&widths, "-")];
    for _ in 0..127 {
        text.push(rule(&widths, "="));
    }
    lines_of(text)
}

/// 128 lines by 128 columns; each inner line has 31 tabs.
fn tabs() -> Lines {
    let mut text = vec![rule(&[126], "-")];
    for _ in 0..126 {
        text.push(format!("|{}   |", "a\t".repeat(31)));
    }
    text.push(rule(&[126], "-"));
    lines_of(text)
}

fn wide_text() -> Lines {
    let mut text = vec![rule(&[126], "-")];
    for _ in 0..80 {
        text.push(format!("|{}|", "\u{4E2D}".repeat(63)));
    }
    text.push(rule(&[126], "-"));
    lines_of(text)
}

/// 128 lines by 128 columns; an inner line has 254 bytes.
fn accents() -> Lines {
    let mut text = vec![rule(&[126], "-")];
    for _ in 0..126 {
        text.push(format!("|{}|", "\u{E9}".repeat(126)));
    }
    text.push(rule(&[126], "-"));
    lines_of(text)
}

fn marks() -> Lines {
    let mut text = vec![rule(&[2], "-")];
    for _ in 0..62 {
        text.push(format!("|x{} |", "\u{301}".repeat(254)));
    }
    text.push(rule(&[2], "-"));
    lines_of(text)
}

fn blanks() -> Lines {
    let mut lines = even(1, 1, 1, 62);
    for line in &mut lines {
        line.0.resize(512, b' ');
    }
    lines
}

fn late_width() -> Lines {
    let mut lines = full_size();
    last(&mut lines).pop();
    lines
}

fn late_trace() -> Lines {
    let mut lines = full_size();
    *last(&mut lines).last_mut().unwrap() = b'-';
    lines
}

fn late_character() -> Lines {
    let mut lines = full_size();
    last(&mut lines).splice(1..2, "\u{180}".bytes());
    lines
}

fn early_width() -> Lines {
    let mut lines = full_size();
    lines[1].0.pop();
    lines
}

fn first_line() -> Lines {
    let mut lines = full_size();
    lines[0].0[1] = b'x';
    lines
}
