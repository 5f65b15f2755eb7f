//! Markdown: what lies on the machine, the examples of CommonMark among it where they are there, and what is made up: nested lists and quotes,
//! headings, links, code, HTML, tables, footnotes.

use std::fs;
use std::path::{Path, PathBuf};
use std::str::Chars;

use crate::chance::Chance;
use crate::characters;

fn gather(at: &Path, depth: usize, files: &mut Vec<PathBuf>) {
    let Ok(entries) = fs::read_dir(at) else { return };
    for entry in entries.flatten() {
        let path = entry.path();
        let Ok(kind) = entry.file_type() else { continue };
        if kind.is_dir() && depth > 0 {
            gather(&path, depth - 1, files);
        } else if kind.is_file() && (path.extension().is_some_and(|end| end == "md" || end == "markdown") || is_examples(&path)) {
            files.push(path);
        }
    }
}

/// Whether a file has the examples of CommonMark, by the names under which they are passed on: with the standard's version or without it.
fn is_examples(path: &Path) -> bool {
    let name = path.file_name().and_then(|name| name.to_str()).unwrap_or_default();
    name == "spec.json" || name.starts_with("spec-") && name.ends_with(".json")
}

/// One of the standard's examples, as it stands.
#[derive(Default)]
pub struct Example {
    pub section: String,
    pub markdown: String,
    pub html: String,
}

/// The objects of a file that have a field `markdown`.
fn examples(json: &str) -> Vec<Example> {
    let mut found = vec![];
    let mut example = Example::default();
    let (mut field, mut text) = (String::new(), String::new());
    let mut letters = json.chars();
    while let Some(letter) = letters.next() {
        match letter {
            '"' => text = string(&mut letters).unwrap_or_default(),
            ':' => field = std::mem::take(&mut text),
            ',' | '}' => {
                let text = std::mem::take(&mut text);
                match std::mem::take(&mut field).as_str() {
                    "section" => example.section = text,
                    "markdown" => example.markdown = text,
                    "html" => example.html = text,
                    _ => (),
                }
                if letter == '}' {
                    found.push(std::mem::take(&mut example));
                }
            }
            _ => (),
        }
    }
    found.retain(|example| !example.markdown.is_empty());
    found
}

/// A string of JSON, from behind its first quote to behind its last.
fn string(letters: &mut Chars) -> Option<String> {
    let mut out = String::new();
    loop {
        match letters.next()? {
            '"' => return Some(out),
            '\\' => match letters.next()? {
                'n' => out.push('\n'),
                't' => out.push('\t'),
                'r' => out.push('\r'),
                'b' => out.push('\x08'),
                'f' => out.push('\x0c'),
                'u' => {
                    let code: String = letters.by_ref().take(4).collect();
                    out.push(char::from_u32(u32::from_str_radix(&code, 16).ok()?).unwrap_or('x'));
                }
                other => out.push(other),
            },
            letter => out.push(letter),
        }
    }
}

/// A document brought into the domain: no carriage return. All else stays as it is.
fn tamed(text: &str) -> Vec<u8> {
    text.bytes().filter(|byte| *byte != b'\r').collect()
}

/// A document with tabs among what leads its lines: for runs of spaces, as an editor puts them, or for any space.
pub fn tabbed(document: &[u8], chance: &mut Chance) -> Vec<u8> {
    let leads = |byte: u8| matches!(byte, b' ' | b'\t' | b'>' | b'*' | b'+' | b'-' | b'0'..=b'9' | b'.' | b')' | b'#');
    let often = 2 + chance.below(6);
    let mut out = vec![];
    let (mut leading, mut column) = (true, 0);
    for byte in document {
        leading = *byte == b'\n' || leading && leads(*byte);
        if *byte == b' ' && leading && chance.once_in(often) {
            // At times the tab stands for the spaces before it too, so that the columns stay what they were.
            while out.last() == Some(&b' ') && column % 4 != 0 && chance.once_in(2) {
                out.pop();
                column -= 1;
            }
            out.push(b'\t');
            column += 4 - column % 4;
        } else {
            out.push(*byte);
            column = if *byte == b'\n' { 0 } else { column + 1 };
        }
    }
    out
}

/// A text in pieces of at most so many bytes, cut at blank lines where that leaves them large enough, else at any line; so never within a character.
fn cut(text: &[u8], most: usize, pieces: &mut Vec<Vec<u8>>) {
    let mut piece: Vec<u8> = vec![];
    for line in text.split(|byte| *byte == b'\n').filter(|line| line.len() < most) {
        if piece.len() + line.len() + 1 > most || line.is_empty() && piece.len() > most * 3 / 4 {
            pieces.push(std::mem::take(&mut piece));
        }
        piece.extend_from_slice(line);
        piece.push(b'\n');
    }
    pieces.push(piece);
}

/// What lies under some directories.
#[derive(Default)]
pub struct Found {
    pub files: usize,
    /// The Markdown of all files, in pieces that fit a record, each once.
    pub pieces: Vec<Vec<u8>>,
    pub examples: Vec<Example>,
}

/// The Markdown files under some directories, and the standard's examples.
pub fn found(directories: &[String]) -> Found {
    let mut files = vec![];
    for directory in directories {
        gather(Path::new(directory), 12, &mut files);
    }
    files.sort();
    let mut found = Found { files: files.len(), ..Found::default() };
    for file in &files {
        let Ok(bytes) = fs::read(file) else { continue };
        let text = String::from_utf8_lossy(&bytes);
        if is_examples(file) {
            found.examples.append(&mut examples(&text));
            continue;
        }
        let text = tamed(&text);
        for most in [400, 2_500, 8_000] {
            cut(&text, most, &mut found.pieces);
        }
    }
    found.pieces.extend(found.examples.iter().map(|example| tamed(&example.markdown)));
    found.pieces.sort();
    found.pieces.dedup();
    found
}

#[rustfmt::skip]
const INLINE: [&str; 46] = [
    "a", "b c", "*", "*", "**", "**", "***", "_", "_", "__", "~", "~~", "~~", "`c`", "``", "[a](b)", "[", "](b)", "]", "![a](b \"t\")", "![", "<b>",
    "</b>", "<a@b.c>", "<http://a.b>", "www.a.com", "a@b.cd", "https://a.b/_c_", "\\*", "\\", "&amp;", "&", "[^1]", "[a]", "[a][]", "  ", " ", " ",
    ".", "(", ")", "\"", "!", "#", "$x$", "\t",
];

/// A piece of a line.
type Piece = fn(&mut Chance) -> &'static str;

/// One of these.
fn plain(chance: &mut Chance) -> &'static str {
    chance.pick::<&str>(&INLINE)
}

/// One of these, or as often a character of one to four bytes. A line feed is none of them here.
fn wide(chance: &mut Chance) -> &'static str {
    match chance.once_in(2) {
        true => plain(chance),
        false => Some(characters::letter(chance)).filter(|letter| *letter != "\n").unwrap_or("*"),
    }
}

fn inline(chance: &mut Chance, piece: Piece) -> String {
    let mut line = String::from(*chance.pick(&["", "a", "b ", "*", "**a"]));
    for _ in 0..chance.below(8) {
        line.push_str(piece(chance));
    }
    line
}

/// Some lines of Markdown, with `depth` levels of containers still allowed.
fn blocks(chance: &mut Chance, depth: usize, piece: Piece) -> Vec<String> {
    let mut lines: Vec<String> = vec![];
    for _ in 0..1 + chance.below(3) {
        match chance.below(if depth > 0 { 20 } else { 10 }) {
            0 | 1 => (0..1 + chance.below(2)).for_each(|_| lines.push(inline(chance, piece))),
            2 => {
                let indent = " ".repeat(chance.below(4));
                let close = *chance.pick(&["", "", " #", " ## ", "#", " # #"]);
                lines.push(format!("{indent}{} {}{close}", "#".repeat(1 + chance.below(6)), inline(chance, piece)));
            }
            3 => lines.push(String::new()),
            4 => {
                let fence = *chance.pick(&["```", "~~~", "````", "$$"]);
                lines.push(format!("{fence}{}", chance.pick(&["", "rs", " a b"])));
                (0..chance.below(3)).for_each(|_| lines.push((*chance.pick(&["code", "", "- a", "# b", "> c"])).into()));
                if !chance.once_in(3) {
                    lines.push(fence.into());
                }
            }
            5 => lines.push(format!("    {}", chance.pick(&["code", "- a", "*b*"]))),
            6 => lines.push((*chance.pick(&["<div>", "</div>", "<!--", "-->", "<script>", "<b>a</b>", "<?a", "<pre>"])).into()),
            7 => lines.push((*chance.pick(&["***", "---", "- - -", "===", "* * *", "___"])).into()),
            8 => lines
                .push((*chance.pick(&["[a]: b", "[a]: b\n  \"t\"", "[^1]: note", "[^1]:\n\n    note", "|a|b|\n|-|-|\n|*c*|d|", "a|b\n-|-"])).into()),
            9 => lines.push(" ".repeat(chance.below(7)) + *chance.pick(&["a", "-", "", "1.", ">", "#"])),
            10..=15 => {
                let mark = *chance.pick(&["-", "-", "*", "+", "1.", "2)", "10.", "1)"]);
                for n in 0..1 + chance.below(3) {
                    if n > 0 && chance.once_in(4) {
                        lines.push(String::new());
                    }
                    let mark = if chance.once_in(8) { *chance.pick(&["-", "*", "3.", "4)"]) } else { mark };
                    let gap = " ".repeat(if chance.once_in(6) { chance.below(7) } else { 1 });
                    let indent = " ".repeat(if chance.once_in(5) { chance.below(4) } else { 0 });
                    let width = indent.len() + mark.len() + gap.len();
                    let inside = blocks(chance, depth - 1, piece);
                    for (i, line) in inside.join("\n").split('\n').enumerate() {
                        if i == 0 {
                            lines.push(format!("{indent}{mark}{gap}{line}"));
                        } else if line.is_empty() {
                            lines.push(String::new());
                        } else {
                            let back = if chance.once_in(10) { chance.below(width + 1) } else { 0 };
                            lines.push(format!("{}{line}", " ".repeat(width - back)));
                        }
                    }
                }
            }
            _ => {
                let inside = blocks(chance, depth - 1, piece);
                for (i, line) in inside.join("\n").split('\n').enumerate() {
                    if i > 0 && chance.once_in(10) {
                        lines.push(line.into());
                    } else {
                        lines.push(format!("{}{line}", chance.pick(&["> ", "> ", "> ", ">", " > ", ">  "])));
                    }
                }
            }
        }
    }
    lines
}

/// A document made up, and at times hurt in a place or two.
pub fn made(chance: &mut Chance) -> Vec<u8> {
    made_of(chance, plain)
}

/// The same with characters of one to four bytes.
pub fn made_wide(chance: &mut Chance) -> Vec<u8> {
    made_of(chance, wide)
}

fn made_of(chance: &mut Chance, piece: Piece) -> Vec<u8> {
    let depth = *chance.pick(&[0, 1, 2, 2, 3, 4]);
    let mut document: Vec<char> = blocks(chance, depth, piece).join("\n").chars().collect();
    if chance.once_in(3) {
        for _ in 0..1 + chance.below(3) {
            let at = chance.below(document.len() + 1);
            match chance.below(3) {
                0 if at < document.len() => {
                    document.remove(at);
                }
                1 => document.insert(at, char::from(*chance.pick(b"\n\n -*#>`_~1."))),
                _ => {
                    let to = (at + chance.below(6)).min(document.len());
                    document.drain(at..to);
                }
            }
        }
    }
    if chance.once_in(2) {
        document.push('\n');
    }
    String::from_iter(document).into_bytes()
}

/// Containers within containers, beyond what a record allows.
pub fn deep(chance: &mut Chance) -> Vec<u8> {
    let levels = 20 + chance.below(50);
    let mut document = vec![];
    for _ in 0..levels {
        document.extend_from_slice(chance.pick(&["> ", "- ", "1. "]).as_bytes());
    }
    document.extend_from_slice(chance.pick(&["a", "# *b*", "*c* **d**"]).as_bytes());
    document
}
