//! The page: its document, its own bytes, and what a browser makes of it.

mod common;

use std::fs;
use std::path::Path;
use std::process::Command;

use common::{Answer, Folder, example, filter, installed};

#[test]
fn the_document_is_that_of_the_examples() {
    let folder = Folder::new("document");
    folder.file("Parts.txt", example("untidy.txt"));
    folder
        .run(&["--html", "Parts.txt"])
        .assert(0, &example("sheet.html"), "");
}

/// The page of `examples/sheet.html` is what the proved program `page` prints.
#[test]
fn the_fragment_is_the_pages_own_bytes() {
    let document = example("sheet.html");
    let (_, page) = document.split_once("<body>\n").unwrap();
    let (page, _) = page.split_once("</body>").unwrap();
    filter(&["--html=fragment"], &example("untidy.txt")).assert(0, page, "");
    // The page has no frame; by 4 columns a tab's place stays.
    let framed: String = example("untidy.txt")
        .lines()
        .map(|line| format!("    {line}\r\n"))
        .collect();
    filter(&["--html=fragment"], &framed).assert(0, page, "");
}

#[test]
fn several_sheets_are_one_document() {
    let folder = Folder::new("several");
    for name in ["list.txt", "parts.txt"] {
        folder.file(name, example(name));
    }
    let files = ["list.txt", "none.txt", "parts.txt"];
    let answer = folder.run(&[&["--html"][..], &files].concat());
    assert_eq!(answer.status, Some(2));
    assert!(
        answer.err.starts_with("none.txt: error: opening: "),
        "{answer:?}"
    );
    assert!(
        answer.out.contains("<title>list, parts</title>"),
        "{answer:?}"
    );
    assert_eq!(answer.out.matches("<!DOCTYPE html>").count(), 1);
    assert_eq!(answer.out.matches("</table>\n").count(), 2);
    let fragments = folder.run(&[&["--html=fragment"][..], &files].concat());
    assert!(answer.out.contains(&fragments.out));
}

#[test]
fn a_text_that_is_too_long_for_the_page_is_said_so() {
    let rule = format!("+{}+\n", "-".repeat(126));
    let line = format!("| {} |\n", "<".repeat(124));
    let sheet = format!("{rule}{}{rule}", line.repeat(100));
    assert_eq!(filter(&[], &sheet).status, Some(0));
    filter(&["--html"], &sheet)
        .assert_failed("error[2]: the text of the page is longer than 32,768 bytes");
}

/// Measures what stands on the page, and leaves it as the document's title.
const MEASURE: &str = r#"<script>
const cell = text => [...document.querySelectorAll("th, td")].find(c => c.textContent.includes(text));
const box = c => c.getBoundingClientRect();
const ink = c => { const r = document.createRange(); r.selectNodeContents(c); return r.getBoundingClientRect(); };
const price = cell("12.00"), part = cell("Part"), belt = cell("Belt"), number = cell("1010");
const all = [...document.querySelectorAll("th, td")];
const near = (a, b) => Math.abs(a - b) < 2;
const padding = parseFloat(getComputedStyle(price).paddingRight) + 1;
document.title = JSON.stringify({
  cells: all.length,
  borders: all.every(c => ["Top", "Right", "Bottom", "Left"].every(s => getComputedStyle(c)["border" + s + "Style"] == "solid")),
  right: near(box(price).right - ink(price).right, padding),
  left: near(ink(part).left - box(part).left, padding),
  center: near(ink(number).left - box(number).left, box(number).right - ink(number).right),
  rows: near(box(part).height, box(cell("No.")).height + box(cell("番号")).height),
  columns: near(box(belt).width, box(part).width + box(number).width + box(price).width),
});
</script>
"#;

/// What a browser prints of a page in a folder.
fn headless(browser: &str, folder: &Folder, option: &str, page: &str) -> String {
    let mut command = Command::new(browser);
    command.args([
        "--headless",
        "--no-sandbox",
        "--disable-gpu",
        "--hide-scrollbars",
    ]);
    command.arg(format!(
        "--user-data-dir={}",
        folder.path("profile").display()
    ));
    command.args(["--window-size=700,500", option]);
    command.arg(format!("file://{}", folder.path(page).display()));
    Answer::of(&mut command, "").out
}

#[test]
fn a_browser_shows_borders_spans_and_prices_to_the_right() {
    let names = [
        "chromium",
        "chromium-browser",
        "google-chrome",
        "headless_shell",
    ];
    let Some(browser) = names.into_iter().find(|name| installed(name)) else {
        eprintln!("left out: no Chromium is installed");
        return;
    };
    let folder = Folder::new("browser");
    folder.file("Parts.txt", example("untidy.txt"));
    let document = folder.run(&["--html", "Parts.txt"]).out;
    folder.file("sheet.html", &document);
    folder.file(
        "measured.html",
        document.replace("</body>", &format!("{MEASURE}</body>")),
    );
    let measured = headless(browser, &folder, "--dump-dom", "measured.html");
    let title = "<title>{\"cells\":24,\"borders\":true,\"right\":true,\"left\":true,\"center\":true,\
                 \"rows\":true,\"columns\":true}</title>";
    assert!(measured.contains(title), "{measured}");

    // The picture itself is kept, to be looked at.
    let picture = Path::new(env!("CARGO_TARGET_TMPDIR")).join("sheet.png");
    headless(
        browser,
        &folder,
        &format!("--screenshot={}", picture.display()),
        "sheet.html",
    );
    let bytes = fs::read(&picture).unwrap();
    assert!(
        bytes.starts_with(b"\x89PNG") && bytes.len() > 5_000,
        "{} bytes",
        bytes.len()
    );
    eprintln!("looked at by {browser}: {}", picture.display());
}
