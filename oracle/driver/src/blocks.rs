//! The blocks of a document as HTML, for the standard's examples. Where a list item starts, whether a line goes on with it, how a line is indented and
//! which line is a heading is the library's word, asked at the column where the containers before end. All else is here, and no more of it than the
//! examples need: quotes, paragraphs with their lazy lines, indented and fenced code, thematic breaks and underlined headings (CommonMark 0.31, sections
//! 4 and 5 and its appendix on how to parse). Inline content is left to the crate.

use crate::answer::{Call, Numbers, Question};
use crate::library::{self, Lent, OUTPUT, WORK};
use crate::standard::element;

const OPTIONS: u32 = 59;

type Fault = &'static str;

enum Kind {
    Root,
    Quote,
    /// With the number of an ordered item as it is written.
    Item {
        mark: u8,
        size: usize,
        blank: bool,
        number: String,
    },
    Paragraph,
    Indented,
    Fenced,
    /// As HTML.
    Done(String),
    /// A blank line, which may make a list loose.
    Blank,
}

struct Node {
    kind: Kind,
    open: bool,
    lines: Vec<String>,
    children: Vec<Node>,
}

impl Node {
    fn new(kind: Kind) -> Node {
        Node { kind, open: true, lines: vec![], children: vec![] }
    }

    fn holds(&self) -> bool {
        matches!(self.kind, Kind::Root | Kind::Quote | Kind::Item { .. })
    }

    fn add(&mut self, kind: Kind) -> &mut Node {
        self.close();
        self.children.push(Node::new(kind));
        self.children.last_mut().unwrap()
    }

    /// Nothing in it stays open.
    fn close(&mut self) {
        if let Some(last) = self.children.last_mut() {
            last.open = false;
            last.close();
        }
    }

    fn leaf(&mut self) -> Option<&mut Node> {
        self.children.last_mut().filter(|last| last.open && !last.holds())
    }

    /// Whether the leaf that is open here is a paragraph.
    fn in_paragraph(&mut self) -> bool {
        self.leaf().is_some_and(|leaf| matches!(leaf.kind, Kind::Paragraph))
    }

    /// The open container so many levels down.
    fn down(&mut self, levels: usize) -> &mut Node {
        (0..levels).fold(self, |node, _| node.children.last_mut().unwrap())
    }

    /// How many open containers are in one another here.
    fn depth(&self) -> usize {
        self.children.last().filter(|last| last.open && last.holds()).map_or(0, |last| 1 + last.depth())
    }

    /// Whether a blank line is the last thing in it.
    fn ends_blank(&self) -> bool {
        let last = self.children.last();
        last.is_some_and(|last| matches!(last.kind, Kind::Blank) || matches!(last.kind, Kind::Item { .. }) && last.ends_blank())
    }
}

/// A line, and how far it is read. Within a tab that was cut, `left` of its columns are still to come.
#[derive(Clone, Copy)]
struct Place<'a> {
    line: &'a str,
    at: usize,
    column: usize,
    left: usize,
}

impl Place<'_> {
    fn rest(&self) -> &str {
        &self.line[self.at..]
    }

    /// The rest as a text: spaces for the columns of a cut tab.
    fn text(&self) -> String {
        if self.left > 0 {
            " ".repeat(self.left) + &self.line[self.at + 1..]
        } else {
            self.rest().into()
        }
    }

    /// Past so many bytes, and into the tab behind them where columns of it are left.
    fn go(&mut self, taken: usize, left: usize) {
        let end = self.at + taken;
        let wide = |column: usize, byte: u8| if byte == b'\t' { 4 - column % 4 } else { 1 };
        let bytes = self.line.as_bytes();
        self.column = bytes[self.at..end].iter().fold(self.column, |column, byte| column + wide(column, *byte));
        if left > 0 {
            self.column += wide(self.column, bytes[end]) - left;
        }
        (self.at, self.left) = (end, left);
    }
}

/// What the library answers on the rest of a line.
fn ask(call: Call, place: &Place, arguments: [usize; 3], lent: &mut Lent) -> Result<Numbers, Fault> {
    let question = Question { column: place.column, arguments, ..Question::new(call, place.rest().into(), OPTIONS) };
    let answer = library::answer(&question, OUTPUT, WORK, lent)?;
    if answer.numbers[0] == 0 {
        Ok(answer.numbers)
    } else {
        Err("a line is refused")
    }
}

/// Take so many columns of spaces and tabs, if there are as many as the minimum.
fn spaces(place: &mut Place, min: usize, max: usize, lent: &mut Lent) -> Result<bool, Fault> {
    let [_, _, found, taken, left, ..] = ask(Call::SpaceOrTab, place, [min, max, 0], lent)?;
    if found == 1 {
        place.go(taken, left);
    }
    Ok(found == 1)
}

/// What stands behind an indentation of up to three columns.
fn indented<'a>(place: &Place<'a>, lent: &mut Lent) -> Result<Place<'a>, Fault> {
    let mut behind = *place;
    spaces(&mut behind, 0, 3, lent)?;
    Ok(behind)
}

/// A quote's mark, with the space that may follow.
fn quote(place: &mut Place, lent: &mut Lent) -> Result<bool, Fault> {
    let mut behind = indented(place, lent)?;
    if behind.left > 0 || !behind.rest().starts_with('>') {
        return Ok(false);
    }
    behind.go(1, 0);
    spaces(&mut behind, 0, 1, lent)?;
    *place = behind;
    Ok(true)
}

/// Whether the line goes on with an open container.
fn goes_on(kind: &mut Kind, place: &mut Place, lent: &mut Lent) -> Result<bool, Fault> {
    let Kind::Item { mark, size, blank, .. } = kind else { return quote(place, lent) };
    let [_, _, found, taken, left, flag, ..] = ask(Call::Continuation, place, [*size, usize::from(*blank), usize::from(*mark)], lent)?;
    *blank = flag == 1;
    if found == 1 {
        place.go(taken, left);
    }
    Ok(found == 1)
}

/// A container that begins here.
fn begins(place: &mut Place, interrupting: bool, lent: &mut Lent) -> Result<Option<Kind>, Fault> {
    if spaces(&mut { *place }, 4, 4, lent)? {
        return Ok(None);
    }
    if quote(place, lent)? {
        return Ok(Some(Kind::Quote));
    }
    let [_, _, found, taken, left, size, blank, mark] = ask(Call::ListItem, place, [usize::from(interrupting), 0, 0], lent)?;
    if found == 0 {
        return Ok(None);
    }
    let number = place.rest()[..taken].chars().filter(char::is_ascii_digit).collect();
    place.go(taken, left);
    Ok(Some(Kind::Item { mark: mark as u8, size, blank: blank == 1, number }))
}

/// Three or more of one mark, the first of them in front, and nothing else but spaces and tabs.
fn is_break(text: &str) -> bool {
    let marks = text.chars().filter(|letter| !matches!(letter, ' ' | '\t')).collect::<Vec<char>>();
    text.starts_with(['*', '-', '_']) && marks.len() >= 3 && marks.iter().all(|mark| *mark == marks[0])
}

/// The level of a heading that is underlined so.
fn underlined(text: &str) -> Option<usize> {
    let text = text.trim_end();
    let all = |mark: char| !text.is_empty() && text.chars().all(|letter| letter == mark);
    [(1, '='), (2, '-')].into_iter().find(|(_, mark)| all(*mark)).map(|(level, _)| level)
}

/// The lines of a text, indented but for the first, so that the crate takes none for the beginning of another block.
fn inline(lines: &[String]) -> Result<String, Fault> {
    crate_side::inline_html(&lines.join("\n    ")).ok_or("a text that is none")
}

/// One more line of a document.
fn line(root: &mut Node, line: &str, lent: &mut Lent) -> Result<(), Fault> {
    let mut place = Place { line, at: 0, column: 0, left: 0 };
    let open = root.depth();
    let mut on = 0;
    while on < open && goes_on(&mut root.down(on + 1).kind, &mut place, lent)? {
        on += 1;
    }
    let lazy = on < open && root.down(open).in_paragraph();
    let here = root.down(on);
    let fenced = on == open && here.leaf().is_some_and(|leaf| matches!(leaf.kind, Kind::Fenced));
    let mut new = 0;
    let mut begun = !fenced;
    while begun {
        let here = root.down(on + new);
        let interrupting = on == open && here.in_paragraph();
        let kind = begins(&mut place, interrupting, lent)?;
        begun = kind.is_some();
        if let Some(kind) = kind {
            here.add(kind);
            new += 1;
        }
    }
    let text = place.text();
    let behind = indented(&place, lent)?;
    let here = root.down(on + new);
    if fenced {
        let leaf = here.leaf().unwrap();
        leaf.open = behind.left > 0 || behind.rest().trim_end() != "```";
        if leaf.open {
            leaf.lines.push(text);
        }
        return Ok(());
    }
    if text.trim_matches([' ', '\t']).is_empty() {
        if on < open && new == 0 {
            here.close();
        }
        match here.leaf() {
            Some(leaf) if matches!(leaf.kind, Kind::Indented) => {
                leaf.lines.push(if spaces(&mut place, 4, 4, lent)? { place.text() } else { String::new() })
            }
            // Behind its own marker there is no blank line.
            _ if new == 0 => {
                here.add(Kind::Blank);
            }
            _ => (),
        }
        return Ok(());
    }
    let underline = if behind.left == 0 { underlined(behind.rest()) } else { None };
    if let Some(level) = underline.filter(|_| (on == open || new > 0) && here.in_paragraph()) {
        let html = format!("<h{level}>{}</h{level}>", inline(&here.leaf().unwrap().lines)?);
        *here.leaf().unwrap() = Node { open: false, ..Node::new(Kind::Done(html)) };
    } else if let Some(html) = element(place.rest(), place.column, lent)? {
        here.add(Kind::Done(html)).open = false;
    } else if behind.left == 0 && is_break(behind.rest()) {
        here.add(Kind::Done("<hr />".into())).open = false;
    } else if behind.left == 0 && behind.rest().trim_end() == "```" {
        here.add(Kind::Fenced);
    } else if new == 0 && lazy {
        root.down(open).leaf().unwrap().lines.push(text.trim_start().into());
    } else if here.in_paragraph() {
        here.leaf().unwrap().lines.push(text.trim_start().into());
    } else if spaces(&mut place, 4, 4, lent)? {
        if !here.leaf().is_some_and(|leaf| matches!(leaf.kind, Kind::Indented)) {
            here.add(Kind::Indented);
        }
        here.leaf().unwrap().lines.push(place.text());
    } else {
        here.add(Kind::Paragraph).lines.push(text.trim_start().into());
    }
    Ok(())
}

fn escaped(text: &str) -> String {
    text.replace('&', "&amp;").replace('<', "&lt;").replace('>', "&gt;").replace('"', "&quot;")
}

/// A new line, unless one has just begun.
fn fresh(html: &mut String) {
    if !html.is_empty() && !html.ends_with('\n') {
        html.push('\n');
    }
}

/// Whether an item stands at the front, and by which mark.
fn mark_of(node: &Node) -> Option<u8> {
    match node.kind {
        Kind::Item { mark, .. } => Some(mark),
        _ => None,
    }
}

/// Section 5.3: "A list is loose if any of its constituent list items are separated by blank lines, or if any of its constituent list items directly
/// contain two block-level elements with a blank line between them." A blank line behind an item that it closes stands beside it.
fn is_loose(items: &[&Node], beside: bool) -> bool {
    let between = |node: &Node| {
        let last = node.children.iter().rposition(|child| !matches!(child.kind, Kind::Blank)).unwrap_or(0);
        node.children[..last].iter().any(|child| matches!(child.kind, Kind::Blank) || mark_of(child).is_some() && child.ends_blank())
    };
    beside || items.iter().any(|item| between(item)) || items[..items.len() - 1].iter().any(|item| item.ends_blank())
}

fn render(nodes: &[Node], tight: bool, html: &mut String) -> Result<(), Fault> {
    let mut i = 0;
    while i < nodes.len() {
        let node = &nodes[i];
        i += 1;
        match &node.kind {
            Kind::Blank | Kind::Root => (),
            Kind::Paragraph if tight => html.push_str(&inline(&node.lines)?),
            Kind::Paragraph => {
                fresh(html);
                *html += &format!("<p>{}</p>\n", inline(&node.lines)?);
            }
            Kind::Done(element) => {
                fresh(html);
                *html += &format!("{element}\n");
            }
            Kind::Indented | Kind::Fenced => {
                // Blank lines behind indented code are not part of it; a fence holds all there is.
                let behind = |line: &&String| matches!(node.kind, Kind::Indented) && line.trim_matches([' ', '\t']).is_empty();
                let count = node.lines.len() - node.lines.iter().rev().take_while(behind).count();
                let code: String = node.lines[..count].iter().map(|line| escaped(line) + "\n").collect();
                fresh(html);
                *html += &format!("<pre><code>{code}</code></pre>\n");
            }
            Kind::Quote => {
                fresh(html);
                *html += "<blockquote>\n";
                render(&node.children, false, html)?;
                fresh(html);
                *html += "</blockquote>\n";
            }
            Kind::Item { mark, number, .. } => {
                let (mut items, mut beside) = (vec![node], false);
                while let Some(next) = nodes[i..].iter().position(|node| !matches!(node.kind, Kind::Blank)).map(|more| i + more) {
                    if mark_of(&nodes[next]) != Some(*mark) {
                        break;
                    }
                    items.push(&nodes[next]);
                    beside |= next > i;
                    i = next + 1;
                }
                let name = if number.is_empty() { "ul" } else { "ol" };
                let value = number.trim_start_matches('0');
                let start = match value {
                    _ if name == "ul" || value == "1" => String::new(),
                    "" => " start=\"0\"".into(),
                    _ => format!(" start=\"{value}\""),
                };
                fresh(html);
                *html += &format!("<{name}{start}>\n");
                let tight = !is_loose(&items, beside);
                for item in items {
                    *html += "<li>";
                    render(&item.children, tight, html)?;
                    *html += "</li>\n";
                }
                *html += &format!("</{name}>\n");
            }
        }
    }
    Ok(())
}

/// A document as HTML.
pub fn html(document: &str, lent: &mut Lent) -> Result<String, Fault> {
    let mut root = Node::new(Kind::Root);
    for one in document.lines() {
        line(&mut root, one, lent)?;
    }
    let mut html = String::new();
    render(&root.children, false, &mut html)?;
    Ok(html)
}
