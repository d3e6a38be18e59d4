//! The document around pages: that of `examples/sheet.html`, with a title of its own.

use std::path::Path;

use crate::arguments::Source;

const EXAMPLE: &str = include_str!("../../../examples/sheet.html");

/// A whole document with these pages.
pub fn document(title: &str, pages: &[Vec<u8>]) -> Vec<u8> {
    let part = |text: &'static str, at: &str| text.split_once(at).unwrap_or((text, ""));
    let (before, rest) = part(EXAMPLE, "Parts</title>");
    let (style, rest) = part(rest, "<table>");
    let (_, after) = part(rest, "</table>\n");
    let title = title
        .replace('&', "&amp;")
        .replace('<', "&lt;")
        .replace('>', "&gt;");
    let mut bytes = format!("{before}{title}</title>{style}").into_bytes();
    bytes.extend(pages.concat());
    bytes.extend(after.as_bytes());
    bytes
}

/// A document's title: the files' names without their endings.
pub fn title<'a>(sources: impl Iterator<Item = &'a Source>) -> String {
    let name = |source: &Source| match source {
        Source::StandardInput => "Sheet".to_owned(),
        Source::File(path) => {
            let stem = path.file_stem().unwrap_or(path.as_os_str());
            Path::new(stem).display().to_string()
        }
    };
    sources.map(name).collect::<Vec<_>>().join(", ")
}

#[cfg(test)]
mod tests {
    use super::*;

    #[test]
    fn the_example_is_such_a_document() {
        let (_, page) = EXAMPLE.split_once("<body>\n").unwrap();
        let (page, _) = page.split_once("</body>").unwrap();
        let made = document("Parts", &[page.as_bytes().to_vec()]);
        assert_eq!(String::from_utf8(made).unwrap(), EXAMPLE);
    }

    #[test]
    fn it_has_charset_style_and_every_page() {
        let pages = [
            b"<table>1</table>\n".to_vec(),
            b"<table>2</table>\n".to_vec(),
        ];
        let made = String::from_utf8(document("a<b", &pages)).unwrap();
        assert!(made.starts_with("<!DOCTYPE html>\n"));
        for part in [
            "<meta charset=\"utf-8\" />",
            "<title>a&lt;b</title>",
            "border-collapse: collapse",
            "<body>\n<table>1</table>\n<table>2</table>\n</body>\n</html>\n",
        ] {
            assert!(made.contains(part), "{part}");
        }
    }

    #[test]
    fn a_title_is_made_of_the_names() {
        let sources = [Source::File("a/parts.txt".into()), Source::StandardInput];
        assert_eq!(title(sources.iter()), "parts, Sheet");
    }
}
