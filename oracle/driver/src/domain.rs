//! Where the crate and the library are held against each other, as document 01 states it; and why an input lies outside, or is not for the crate to
//! decide.

use crate::answer::Call;
use crate_side::Event;

/// Why a record's document or a line is outside: the crate takes well-formed UTF-8 alone. All else may stand anywhere.
pub fn bytes_outside(bytes: &[u8]) -> Option<&'static str> {
    if bytes.contains(&b'\r') {
        return Some("carriage return");
    }
    if std::str::from_utf8(bytes).is_err() {
        return Some("malformed UTF-8");
    }
    None
}

/// The characters that are whitespace to the crate and other here (D6). So is a carriage return, which no record may have.
pub const SEPARATORS: [&str; 4] = ["\u{b}", "\u{85}", "\u{2028}", "\u{2029}"];

const SEPARATOR_BESIDE: &str = "U+000B, U+0085, U+2028 or U+2029 beside a run";

/// Whether one of these characters stands right beside a run. The document is well-formed.
fn has_separator_beside(document: &[u8], events: &[Event]) -> bool {
    events.iter().filter(|event| event.name == 1).any(|event| {
        let (before, behind) = document.split_at(event.place as usize);
        SEPARATORS.iter().any(|one| if event.exit { behind.starts_with(one.as_bytes()) } else { before.ends_with(one.as_bytes()) })
    })
}

/// The events of each heading, from its enter to its exit.
pub fn headings_in(events: &[Event]) -> impl Iterator<Item = &[Event]> {
    let enters = events.iter().enumerate().filter(|(_, event)| event.name == 11 && !event.exit);
    enters.map(|(i, _)| {
        // No heading stands in another.
        let inside = events[i + 1..].iter().take_while(|event| event.name != 11).count();
        &events[i..events.len().min(i + inside + 2)]
    })
}

pub const RUN_AT_END: &str = "a `#` run before the first Data of a heading or behind the last";

/// Why the crate does not decide on an accepted record in the domain: the library's rule is another there. For attention those are the characters
/// that are the crate's whitespace alone (D6), where one of them stands beside a run.
pub fn departs(call: Call, document: &[u8], events: &[Event]) -> Option<&'static str> {
    match call {
        Call::Attention => has_separator_beside(document, events).then_some(SEPARATOR_BESIDE),
        Call::Headings => headings_in(events).any(has_run_at_end).then_some(RUN_AT_END),
        _ => None,
    }
}

/// To the crate a heading's text begins and ends with Data; to the library it may with a `#` run (D10, D11, D17). They are the same where each run but
/// the opening and the closing one stands between Data. The opening one is the first thing other than space or tab, the closing one the last.
pub fn has_run_at_end(heading: &[Event]) -> bool {
    let things: Vec<u8> = heading.iter().filter(|event| !event.exit && !matches!(event.name, 11 | 14)).map(|event| event.name).collect();
    let behind_opening = things.get(1..).unwrap_or_default();
    let text = behind_opening.strip_suffix(&[12]).unwrap_or(behind_opening);
    text.first() == Some(&12) || text.last() == Some(&12)
}
