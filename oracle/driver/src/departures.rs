//! The rows of docs/DIFFERENCES.md, run: what the crate and the library make of each one's inputs, held against what the row says.

use crate::answer::{Answer, Call, Question, SIZE};
use crate::compare::{call_of, crate_line, parts_of, resolved, resolver_of};
use crate::library::{self, Lent, OUTPUT, WORK};
use crate::records;
use crate_side::{write_record, Event, Resolver, Settings, Start};

/// What is looked at in an answer.
#[derive(Clone, Copy)]
enum Look {
    Groups,
    Refusal,
    Size,
    Found,
    /// Where the heading's text begins and ends.
    Text,
}

fn look(answer: &Answer, at: Look) -> String {
    let numbers = answer.numbers;
    match at {
        _ if numbers[0] != 0 => format!("refused with {} at {}", numbers[0], numbers[1]),
        Look::Groups => format!("groups {}", numbers[3]),
        Look::Refusal => "accepted".into(),
        Look::Size => format!("size {}", numbers[SIZE]),
        Look::Found => (if numbers[2] == 1 { "found" } else { "not found" }).into(),
        Look::Text => {
            let places: Vec<String> =
                crate_side::read_section(&answer.section).iter().filter(|event| event.name == 13).map(|event| event.place.to_string()).collect();
            format!("text {}", if places.is_empty() { "none".into() } else { places.join(" to ") })
        }
    }
}

fn line(call: Call, input: &[u8], arguments: [usize; 3]) -> Question {
    Question { arguments, ..Question::new(call, input.to_vec(), 59) }
}

/// A heading's record as the crate reads the line.
fn heading(text: &[u8]) -> Question {
    let events = crate_side::heading(text, &Settings::new(59), Start::default()).expect("a heading");
    Question::new(Call::Headings, write_record(text, &events), 59)
}

/// What a resolver is given first when the crate parses a document.
fn watched(which: Resolver, document: &str, settings: Settings) -> Question {
    let seen = crate_side::watch_document(document, &settings);
    let before = &seen.iter().find(|one| one.which == which).expect("the resolver is called").before;
    Question::new(call_of(which), write_record(document.as_bytes(), before), 59)
}

/// A record of `pairs` empty pairs over no document, each within the one before or behind it.
fn empty_pairs(pairs: usize, within: bool) -> Question {
    let (enter, exit) = (Event { exit: false, name: 24, place: 0 }, Event { exit: true, name: 24, place: 0 });
    let events = if within { [vec![enter; pairs], vec![exit; pairs]].concat() } else { [enter, exit].repeat(pairs) };
    Question::new(Call::Headings, write_record(b"", &events), 59)
}

/// A line that starts at a column.
fn at(column: usize, question: Question) -> Question {
    Question { column, ..question }
}

/// The crate's answer; on a line, with so many columns of the tab in front behind the column where it starts.
fn crate_says(question: &Question, within: usize) -> Answer {
    let settings = Settings::new(question.options);
    match question.call {
        Call::Attention | Call::Headings | Call::Lists => {
            let (document, before) = parts_of(&question.input);
            resolved(question.call, &before, &crate_side::resolve(resolver_of(question.call), document, &before, &settings), 0)
        }
        _ => crate_line(question, &settings, within),
    }
}

/// Run every row and print it. Gives back how many are not as the row says.
pub fn run() -> usize {
    let text = |text: &[u8], options: u32| records::split(text, options);
    let many = [vec![b'*'; 2000], vec![b'a'], vec![b'*'; 1999]].concat();
    let rows: [(&str, Question, Look, &str, &str); 27] = [
        ("D1", text(b"*\r*", 59), Look::Groups, "groups 0", "refused with 4 at 5"),
        ("D3", text(b"a*\0*", 59), Look::Groups, "groups 1", "groups 1"),
        ("D4", text(b"a*_b_*", 59), Look::Groups, "groups 2", "groups 2"),
        ("D5", text(b"****a** b*c", 59), Look::Groups, "groups 1", "groups 1"),
        ("D6", text(b"*\x0b*", 59), Look::Groups, "groups 0", "groups 1"),
        ("D6", text("*\u{85}*".as_bytes(), 59), Look::Groups, "groups 0", "groups 1"),
        ("D6", text("*\u{2028}*".as_bytes(), 59), Look::Groups, "groups 0", "groups 1"),
        ("D6", text("*\u{2029}*".as_bytes(), 59), Look::Groups, "groups 0", "groups 1"),
        ("D7", text(b"~a~", 59), Look::Groups, "groups 0", "groups 0"),
        ("D9", line(Call::ListItem, b"01. a", [1, 0, 0]), Look::Found, "not found", "not found"),
        ("D10", heading(b"# #a"), Look::Text, "text 3 to 4", "text 2 to 4"),
        ("D11", heading(b"# a # #"), Look::Text, "text 2 to 3", "text 2 to 5"),
        ("D12", watched(Resolver::Lists, "- <?\n-", Settings::new(59)), Look::Refusal, "accepted", "refused with 6 at 126"),
        ("D13", watched(Resolver::Lists, "- <?\n\na", Settings::new(59)), Look::Refusal, "accepted", "refused with 5 at 119"),
        ("D14", line(Call::ListItem, b"-\ta", [0; 3]), Look::Size, "size 2", "size 4"),
        ("D15", watched(Resolver::Attention, "_[^]()", Settings::new(59)), Look::Refusal, "accepted", "refused with 5 at 94"),
        (
            "D16",
            watched(Resolver::Headings, "---\n#\n>", Settings::new(59).with_math_and_frontmatter()),
            Look::Refusal,
            "accepted",
            "refused with 5 at 95",
        ),
        ("D17", heading(b"# # #"), Look::Text, "text none", "text 2 to 3"),
        ("D18", text(&[b'a'; 16_385], 59), Look::Refusal, "accepted", "refused with 3 at 0"),
        ("D18", empty_pairs(1_025, false), Look::Refusal, "accepted", "refused with 3 at 4"),
        ("D18", empty_pairs(65, true), Look::Refusal, "accepted", "refused with 5 at 520"),
        ("D18", line(Call::SpaceOrTab, &[b' '; 16_385], [0, usize::MAX, 0]), Look::Found, "found", "refused with 3 at 16384"),
        ("D18", text(&many, 59), Look::Refusal, "accepted", "refused with 7 at 0"),
        ("D18", at(16_385, line(Call::SpaceOrTab, b" ", [1, 1, 0])), Look::Found, "found", "refused with 2 at 0"),
        ("D19", watched(Resolver::Attention, ">*.**", Settings::new(59)), Look::Groups, "groups 0", "groups 0"),
        ("D20", Question { options: 27, ..line(Call::ListItem, b"    - a", [0; 3]) }, Look::Found, "found", "found"),
        ("D20", Question { options: 27, ..line(Call::Heading, b"    #", [0; 3]) }, Look::Found, "found", "found"),
    ];
    println!("\n| row | crate | library |\n|---|---|---|");
    let mut wrong = 0;
    let lent = &mut Lent::new();
    // The tab of `>\t- a` begins at column 1, and the quote takes one column of it: the item's line starts at 2, within the tab.
    let within_tab = ("D14", at(2, line(Call::ListItem, b"\t- a", [0; 3])), Look::Size, "size 5", "size 4");
    let rows = rows.into_iter().map(|row| (row, 0)).chain([(within_tab, 1)]);
    for ((row, question, at, crate_row, our_row), within) in rows {
        let theirs = look(&crate_says(&question, within), at);
        let ours = library::answer(&question, OUTPUT, WORK, lent).map_or_else(String::from, |answer| look(&answer, at));
        let as_said = theirs == crate_row && ours == our_row;
        wrong += usize::from(!as_said);
        println!("| {row} | {theirs} | {ours} |{}", if as_said { "" } else { " NOT AS THE ROW SAYS" });
    }
    println!();
    wrong
}
