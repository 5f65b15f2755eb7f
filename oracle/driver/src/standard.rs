//! The standard's own examples of headings, tabs, list items and what else the indentation of a line decides: what the library reads and resolves of
//! their lines is held against their HTML.

use std::fmt::Debug;

use crate::blocks;
use crate::documents::Example;
use crate::library::{self, Lent, OUTPUT, WORK};

const HEADINGS: &str = "ATX headings";
/// Sections whose examples are taken whole.
const BLOCKS: [&str; 6] = ["Tabs", "Thematic breaks", "Indented code blocks", "Block quotes", "List items", "Lists"];
/// Blocks of HTML and definitions, which the small parser of blocks does not know: an example with one of them is left out, and counted.
const UNKNOWN: [&str; 2] = ["<!--", "]: "];

/// A line that starts at a column as an element, if the library reads a heading there. Only the inline content of its text is left to the crate.
pub fn element(line: &str, column: usize, lent: &mut Lent) -> Result<Option<String>, &'static str> {
    let Some(question) = library::heading_record(line.as_bytes(), 59, column, lent)? else { return Ok(None) };
    let answer = library::answer(&question, OUTPUT, WORK, lent)?;
    if answer.numbers[0] != 0 {
        return Err("its own section is refused");
    }
    let events = crate_side::read_section(&answer.section);
    let places = |name: u8| -> Vec<usize> { events.iter().filter(|event| event.name == name).map(|event| event.place as usize).collect() };
    let level = match places(12)[..] {
        [from, to, ..] if from < to => to - from,
        _ => return Err("no opening run"),
    };
    let inner = match places(13)[..] {
        [] => String::new(),
        [from, to] => line.get(from..to).and_then(crate_side::inline_html).ok_or("a text that is none")?,
        _ => return Err("more than one text"),
    };
    Ok(Some(format!("<h{level}>{inner}</h{level}>")))
}

/// The elements of headings in some HTML, in their order.
fn elements(html: &str) -> Vec<String> {
    let begins = |at: usize| (1..=6).find(|level| html[at..].starts_with(&format!("<h{level}>"))).map(|level| (at, format!("</h{level}>")));
    let whole = |(at, end): (usize, String)| html[at..].find(&end).map(|to| html[at..at + to + end.len()].into());
    html.match_indices('<').filter_map(|(at, _)| begins(at)).filter_map(whole).collect()
}

fn show(example: &Example, ours: &dyn Debug, wanted: &dyn Debug) {
    println!("{:?} is NOT AS THE STANDARD HAS IT:\n    library: {ours:?}\n    standard: {wanted:?}\n", example.markdown);
}

/// Run the examples and print how many there are. Gives back how many do not come out as the standard has them.
pub fn run(examples: &[Example]) -> usize {
    let lent = &mut Lent::new();
    let (mut all, mut headings, mut wrong) = (0, 0, 0);
    for example in examples.iter().filter(|example| example.section == HEADINGS) {
        let ours: Result<Vec<String>, &str> = example.markdown.lines().filter_map(|line| element(line, 0, lent).transpose()).collect();
        let wanted = elements(&example.html);
        all += 1;
        headings += wanted.len();
        if ours.as_ref() != Ok(&wanted) {
            wrong += 1;
            show(example, &ours, &wanted);
        }
    }
    println!("The standard's examples of {HEADINGS}: {all}, with {headings} headings; {wrong} are not as the standard has them.");
    for section in BLOCKS {
        let (mut all, mut left_out, mut others) = (0, 0, 0);
        for example in examples.iter().filter(|example| example.section == section) {
            if UNKNOWN.iter().any(|one| example.markdown.contains(one)) {
                left_out += 1;
                continue;
            }
            let ours = blocks::html(&example.markdown, lent);
            all += 1;
            if ours.as_ref() != Ok(&example.html) {
                others += 1;
                show(example, &ours, &example.html);
            }
        }
        println!("The standard's examples of {section}: {all}, and {left_out} left out; {others} are not as the standard has them.");
        wrong += others;
    }
    println!();
    wrong
}
