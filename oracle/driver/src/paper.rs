//! Document 01 in plain Rust: every call as its paragraphs say it, on records of either form, with lists and searches and no thought of speed.
//!
//! It is code of its own, apart from both sides that are compared; whoever wrote it had read the crate's source. It says which refusal a record gets,
//! which the crate cannot say, and how many candidates are tried, which the crate does not count.

use crate::answer::{Answer, Call, Question};
use crate::categories::{PUNCTUATION, SPACES};
use crate::forms::{partners, Form};

const WORK: usize = 65_536;
const DOCUMENT: usize = 16_384;
const EVENTS: usize = 2_048;
const DEPTH: usize = 64;
const RESULT: usize = 8_000;
const COLUMN: usize = 16_384;

#[derive(Clone, Copy, PartialEq, Eq, Debug)]
struct Event {
    exit: bool,
    name: u8,
    place: usize,
}

struct Good<'a> {
    form: Form,
    /// Given beside the record, or read in it.
    options: u32,
    document: &'a [u8],
    events: Vec<Event>,
}

impl Good<'_> {
    /// The shape rule is broken by what enters at event `i`.
    fn not_in_shape(&self, i: usize) -> Refused {
        (6, self.form.front() + 8 + self.document.len() + self.form.width() * i)
    }
}

type Refused = (usize, usize);

fn number_at(bytes: &[u8], at: usize) -> Option<usize> {
    let four = bytes.get(at..at + 4)?;
    Some(four.iter().rev().fold(0, |sum, byte| sum * 256 + *byte as usize))
}

/// The option byte of a record of form 2, which is all that its first section has.
fn options_in(record: &[u8]) -> Result<u32, Refused> {
    match (number_at(record, 0), record.get(4)) {
        (Some(1), Some(options)) => Ok(u32::from(*options)),
        (Some(1) | None, _) => Err((3, 0)),
        (Some(_), _) => Err((2, 0)),
    }
}

/// Numbers 1 to 5, lowest number first, and the earliest place within a number.
fn check(record: &[u8], form: Form, options: u32, work: usize) -> Result<Good<'_>, Refused> {
    if work < WORK {
        return Err((1, 0));
    }
    let options = if form == Form::Second { options_in(record)? } else { options };
    if options > 63 {
        return Err((2, 0));
    }
    let (front, width) = (form.front(), form.width());
    let fits = |count: usize, limit: usize, end: usize| count <= limit && end <= record.len();
    let bytes = number_at(record, front).filter(|d| fits(*d, DOCUMENT, front + 4 + d)).ok_or((3, front))?;
    let start = front + 8 + bytes;
    let count = number_at(record, start - 4).filter(|e| fits(*e, EVENTS, start + width * e)).ok_or((3, start - 4))?;
    if record.len() > start + width * count {
        return Err((3, start + width * count));
    }
    let document = &record[front + 4..front + 4 + bytes];
    if let Some(offset) = document.iter().position(|byte| *byte == b'\r') {
        return Err((4, front + 4 + offset));
    }
    // The name of each open event, its number, and the number of its partner where the form has one.
    let mut open: Vec<(u8, usize, Option<usize>)> = vec![];
    let mut events: Vec<Event> = vec![];
    for i in 0..count {
        let here = (5, start + width * i);
        let e = &record[start + width * i..start + width * (i + 1)];
        let (place, partner) = (number_at(e, 4).unwrap(), number_at(e, 8));
        if e[0] > 1 || e[1] > 24 || e[2] != 0 || e[3] != 0 || place > bytes || events.last().is_some_and(|before| place < before.place) {
            return Err(here);
        }
        let event = Event { exit: e[0] == 1, name: e[1], place };
        if event.exit {
            let (name, enter, exit) = open.pop().ok_or(here)?;
            let untrue = partner.is_some_and(|number| number != enter) || exit.is_some_and(|number| number != i);
            if name != event.name || untrue {
                return Err(here);
            }
        } else {
            open.push((event.name, i, partner));
            if open.len() > DEPTH {
                return Err(here);
            }
        }
        events.push(event);
    }
    if !open.is_empty() {
        return Err((5, record.len()));
    }
    Ok(Good { form, options, document, events })
}

/// Whether the event at `i` is an enter of one of these names that is left by the next event.
fn is_leaf(events: &[Event], i: usize, names: &[u8]) -> bool {
    i + 1 < events.len() && !events[i].exit && names.contains(&events[i].name) && events[i + 1].exit
}

/// The number of the exit for the enter at `i`.
fn exit_of(events: &[Event], i: usize) -> usize {
    let mut depth = 0;
    for (j, event) in events.iter().enumerate().skip(i) {
        depth = if event.exit { depth - 1 } else { depth + 1 };
        if depth == 0 {
            return j;
        }
    }
    unreachable!("the record is balanced")
}

// Attention

#[derive(Clone, Copy, PartialEq, Eq)]
enum Class {
    Whitespace,
    Punctuation,
    Other,
}

/// The bytes that may stand second, third and fourth in a sequence of UTF-8, where the first does not narrow them.
const BEHIND: (u8, u8) = (0x80, 0xbf);

/// The forms of a well-formed sequence, as Unicode's table 3-7 has them: for each byte the least and the greatest.
const FORMS: [&[(u8, u8)]; 9] = [
    &[(0x00, 0x7f)],
    &[(0xc2, 0xdf), BEHIND],
    &[(0xe0, 0xe0), (0xa0, 0xbf), BEHIND],
    &[(0xe1, 0xec), BEHIND, BEHIND],
    &[(0xed, 0xed), (0x80, 0x9f), BEHIND],
    &[(0xee, 0xef), BEHIND, BEHIND],
    &[(0xf0, 0xf0), (0x90, 0xbf), BEHIND, BEHIND],
    &[(0xf1, 0xf3), BEHIND, BEHIND, BEHIND],
    &[(0xf4, 0xf4), (0x80, 0x8f), BEHIND, BEHIND],
];

/// The code point of some bytes, if they are one well-formed sequence and no more.
fn code_point(bytes: &[u8]) -> Option<u32> {
    let has_form = |form: &[(u8, u8)]| form.len() == bytes.len() && form.iter().zip(bytes).all(|((least, most), byte)| least <= byte && byte <= most);
    if !FORMS.iter().any(|form| has_form(form)) {
        return None;
    }
    let first = match bytes.len() {
        1 => bytes[0],
        2 => bytes[0] - 0xc0,
        3 => bytes[0] - 0xe0,
        _ => bytes[0] - 0xf0,
    };
    Some(bytes[1..].iter().fold(u32::from(first), |code, byte| code * 64 + u32::from(byte - 0x80)))
}

/// The class of a character.
fn class(code: u32) -> Class {
    if matches!(code, 0x09 | 0x0a | 0x0c) || SPACES.contains(&code) {
        return Class::Whitespace;
    }
    if PUNCTUATION.iter().any(|(first, last)| *first <= code && code <= *last) {
        return Class::Punctuation;
    }
    Class::Other
}

/// The class of what stands before a place: of the character that ends there, whatever stands before it. Where none ends there it is other.
fn class_before(document: &[u8], at: usize) -> Class {
    if at == 0 {
        return Class::Whitespace;
    }
    (1..=at.min(4)).find_map(|length| code_point(&document[at - length..at])).map_or(Class::Other, class)
}

/// The class of what stands behind a place: of the character that begins there, whatever stands behind it. Where none begins there it is other.
fn class_after(document: &[u8], at: usize) -> Class {
    let rest = &document[at..];
    if rest.is_empty() {
        return Class::Whitespace;
    }
    (1..=rest.len().min(4)).find_map(|length| code_point(&rest[..length])).map_or(Class::Other, class)
}

struct Run {
    enter: usize,
    start: usize,
    whole: usize,
    marker: u8,
    container: Option<usize>,
    open: bool,
    close: bool,
    /// Bytes given to groups that it closes, and to groups that it opens: sizes in match order.
    closing: Vec<usize>,
    opening: Vec<usize>,
}

impl Run {
    fn left(&self) -> usize {
        self.whole - self.closing.iter().sum::<usize>() - self.opening.iter().sum::<usize>()
    }
}

fn run_holds(good: &Good, i: usize) -> bool {
    if !is_leaf(&good.events, i, &[1]) {
        return false;
    }
    let (from, to) = (good.events[i].place, good.events[i + 1].place);
    if to <= from {
        return false;
    }
    let marker = good.document[from];
    let option = match marker {
        b'*' | b'_' => 1,
        b'~' => 2,
        _ => return false,
    };
    good.options & option != 0 && good.document[from..to].iter().all(|byte| *byte == marker) && good.document.get(to) != Some(&marker)
}

fn runs_of(good: &Good) -> Vec<Run> {
    let options = good.options;
    let mut stack = vec![];
    let mut runs = vec![];
    for (i, event) in good.events.iter().enumerate() {
        if event.name == 1 {
            if !event.exit {
                let (from, to) = (event.place, good.events[i + 1].place);
                let marker = good.document[from];
                let (before, after) = (class_before(good.document, from), class_after(good.document, to));
                let beside = |byte: Option<&u8>| marker != b'~' && (matches!(byte, Some(b'*' | b'_')) || options & 2 != 0 && byte == Some(&b'~'));
                let may = |one: Class, other: Class, byte: Option<&u8>| {
                    one == Class::Other || one == Class::Punctuation && other != Class::Other || beside(byte)
                };
                // Whether a marker stands beside the run goes by bytes.
                let open = may(after, before, good.document.get(to));
                let close = may(before, after, good.document[..from].last());
                let low = marker == b'_';
                runs.push(Run {
                    enter: i,
                    start: from,
                    whole: to - from,
                    marker,
                    container: stack.last().copied(),
                    open: open && (!low || before != Class::Other || !close),
                    close: close && (!low || after != Class::Other || !open),
                    closing: vec![],
                    opening: vec![],
                });
            }
        } else if event.exit {
            stack.pop();
        } else {
            stack.push(i);
        }
    }
    runs
}

/// The plain rule: groups are noted in the runs; their number and the candidates tried are given back.
fn match_runs(runs: &mut [Run], options: u32) -> (usize, usize) {
    let (mut groups, mut tried) = (0, 0);
    for c in 0..runs.len() {
        while runs[c].close && runs[c].left() > 0 {
            let mut found = None;
            for o in (0..c).rev() {
                let (opener, closer) = (&runs[o], &runs[c]);
                if opener.left() == 0 || !opener.open || opener.marker != closer.marker || opener.container != closer.container {
                    continue;
                }
                tried += 1;
                let (a, b) = (opener.left(), closer.left());
                let three = (opener.close || closer.open) && b % 3 != 0 && (a + b) % 3 == 0;
                let tilde = closer.marker == b'~' && (a != b || b > 2 || b == 1 && options & 4 == 0);
                if !three && !tilde {
                    found = Some(o);
                    break;
                }
            }
            let Some(o) = found else { break };
            let take = if runs[o].left() >= 2 && runs[c].left() >= 2 { 2 } else { 1 };
            runs[o].opening.push(take);
            runs[c].closing.push(take);
            for run in &mut runs[o + 1..c] {
                run.open = false;
            }
            groups += 1;
        }
    }
    (groups, tried)
}

fn group_name(marker: u8, size: usize) -> u8 {
    match (marker, size) {
        (b'~', _) => 8,
        (_, 1) => 2,
        _ => 5,
    }
}

fn put(out: &mut Vec<Event>, exit: bool, name: u8, place: usize) {
    out.push(Event { exit, name, place });
}

fn attention(good: &Good) -> Result<(Vec<Event>, usize, usize), Refused> {
    for (i, event) in good.events.iter().enumerate() {
        if event.name == 1 && !event.exit && !run_holds(good, i) {
            return Err(good.not_in_shape(i));
        }
    }
    let mut runs = runs_of(good);
    let (groups, tried) = match_runs(&mut runs, good.options);
    let mut out = vec![];
    let mut next = runs.iter().peekable();
    let mut i = 0;
    while i < good.events.len() {
        match next.next_if(|run| run.enter == i) {
            None => {
                out.push(good.events[i]);
                i += 1;
            }
            Some(run) => {
                let mut at = run.start;
                for size in &run.closing {
                    let group = group_name(run.marker, *size);
                    put(&mut out, true, group + 2, at);
                    put(&mut out, false, group + 1, at);
                    at += size;
                    put(&mut out, true, group + 1, at);
                    put(&mut out, true, group, at);
                }
                if run.left() > 0 {
                    put(&mut out, false, 0, at);
                    at += run.left();
                    put(&mut out, true, 0, at);
                }
                for size in run.opening.iter().rev() {
                    let group = group_name(run.marker, *size);
                    put(&mut out, false, group, at);
                    put(&mut out, false, group + 1, at);
                    at += size;
                    put(&mut out, true, group + 1, at);
                    put(&mut out, false, group + 2, at);
                }
                i += 2;
            }
        }
    }
    Ok((out, groups, tried))
}

// Headings

fn heading_holds(events: &[Event], i: usize) -> bool {
    let end = exit_of(events, i);
    let mut at = i + 1;
    if is_leaf(events, at, &[14]) {
        at += 2;
    }
    if !is_leaf(events, at, &[12]) {
        return false;
    }
    while at < end {
        if !is_leaf(events, at, &[0, 12, 14]) {
            return false;
        }
        at += 2;
    }
    true
}

/// Where the text of the heading that enters at `i` goes: from the first Data or `#` run after the opening run to the last Data or `#` run, but a
/// `#` run that is the last thing other than space or tab is the closing run and stays out. The numbers of an enter and an exit, or none.
fn text_of(events: &[Event], i: usize) -> Option<(usize, usize)> {
    let pairs: Vec<usize> = (i + 1..exit_of(events, i)).step_by(2).collect();
    let things: Vec<usize> = pairs.into_iter().filter(|pair| events[*pair].name != 14).collect();
    let behind = &things[1..];
    let text = match behind.split_last() {
        Some((last, before)) if events[*last].name == 12 => before,
        _ => behind,
    };
    Some((*text.first()?, *text.last()? + 1))
}

fn headings(good: &Good) -> Result<Vec<Event>, Refused> {
    let events = &good.events;
    let is_heading = |i: usize| events[i].name == 11 && !events[i].exit;
    if let Some(i) = (0..events.len()).find(|i| is_heading(*i) && !heading_holds(events, *i)) {
        return Err(good.not_in_shape(i));
    }
    let mut out = vec![];
    let mut i = 0;
    while i < events.len() {
        if !is_heading(i) {
            out.push(events[i]);
            i += 1;
            continue;
        }
        let end = exit_of(events, i) + 1;
        match text_of(events, i) {
            Some((first, last)) => {
                let (from, to) = (events[first].place, events[last].place);
                out.extend_from_slice(&events[i..first]);
                // One Data pair is left inside the text.
                put(&mut out, false, 13, from);
                put(&mut out, false, 0, from);
                put(&mut out, true, 0, to);
                put(&mut out, true, 13, to);
                out.extend_from_slice(&events[last + 1..end]);
            }
            None => out.extend_from_slice(&events[i..end]),
        }
        i = end;
    }
    Ok(out)
}

// Lists

/// The mark of the item that enters at `i`, if its shape holds.
fn mark_of(good: &Good, i: usize) -> Option<u8> {
    let events = &good.events;
    let mut at = i + 1;
    if is_leaf(events, at, &[14]) {
        at += 2;
    }
    if events[at].exit || events[at].name != 16 {
        return None;
    }
    let end = exit_of(events, at);
    at += 1;
    if is_leaf(events, at, &[18]) {
        at += 2;
    }
    if !is_leaf(events, at, &[17]) || events[at + 1].place != events[at].place + 1 {
        return None;
    }
    let mark = good.document[events[at].place];
    at += 2;
    if is_leaf(events, at, &[14]) {
        at += 2;
    }
    (at == end && b"*+-.)".contains(&mark)).then_some(mark)
}

fn lists(good: &Good) -> Result<Vec<Event>, Refused> {
    let events = &good.events;
    let is_item = |i: usize| events[i].name == 15 && !events[i].exit;
    let mut marks = vec![0; events.len()];
    for i in (0..events.len()).filter(|i| is_item(*i)) {
        let behind = i > 0 && events[i - 1].name == 15 && events[i - 1].exit;
        match mark_of(good, i) {
            Some(mark) if !behind => marks[i] = mark,
            _ => return Err(good.not_in_shape(i)),
        }
    }
    // For each item, the sibling it joins: the nearest item before it with nothing between but whole 14, 21, 22, 23 holding no item.
    let mut first = vec![false; events.len()];
    let mut last = vec![false; events.len()];
    for i in (0..events.len()).filter(|i| is_item(*i)) {
        (first[i], last[exit_of(events, i)]) = (true, true);
    }
    for i in (0..events.len()).filter(|i| is_item(*i)) {
        let end = exit_of(events, i);
        let mut at = end + 1;
        while at < events.len() && !events[at].exit && [14, 21, 22, 23].contains(&events[at].name) {
            let over = exit_of(events, at);
            if (at..over).any(is_item) {
                break;
            }
            at = over + 1;
        }
        if at < events.len() && is_item(at) && marks[at] == marks[i] {
            last[end] = false;
            first[at] = false;
        }
    }
    let mut out = vec![];
    // Which list is open at each level of items.
    let mut open: Vec<u8> = vec![];
    let mut stack: Vec<usize> = vec![];
    for (i, event) in events.iter().enumerate() {
        if is_item(i) {
            let name = if matches!(marks[i], b'.' | b')') { 19 } else { 20 };
            if first[i] {
                put(&mut out, false, name, event.place);
            }
            open.push(name);
        }
        if !event.exit {
            stack.push(i);
        }
        out.push(*event);
        if event.exit {
            let enter = stack.pop().unwrap();
            if is_item(enter) {
                let name = open.pop().unwrap();
                if last[i] {
                    put(&mut out, true, name, event.place);
                }
            }
        }
    }
    Ok(out)
}

// Lines

fn is_blank(byte: &u8) -> bool {
    matches!(byte, b' ' | b'\t')
}

/// The columns of the spaces and tabs in front, laid out one by one: for each the number of the byte that it belongs to. A tab has all those up to the
/// next stop, of which there is one every four columns.
fn columns_of(bytes: &[u8], start: usize) -> Vec<usize> {
    let mut columns = vec![];
    for (i, byte) in bytes.iter().enumerate().take_while(|(_, byte)| is_blank(byte)) {
        let stop = (start + columns.len()) / 4 * 4 + 4;
        columns.resize(if *byte == b'\t' { stop - start } else { columns.len() + 1 }, i);
    }
    columns
}

/// Bytes and columns: those of the bytes that are taken whole, and of the next one those that are left where some of it is taken.
struct Taken {
    bytes: usize,
    left: usize,
}

/// So many of the columns taken.
fn take(columns: &[usize], count: usize) -> Taken {
    let (gone, rest) = columns.split_at(count);
    match (gone.last(), rest.first()) {
        (Some(last), Some(next)) if last == next => Taken { bytes: *last, left: rest.iter().filter(|byte| *byte == last).count() },
        (Some(last), _) => Taken { bytes: last + 1, left: 0 },
        (None, _) => Taken { bytes: 0, left: 0 },
    }
}

/// Numbers 2, 3 and 4, and the line up to its first line feed.
fn line_of(line: &[u8], options: u32, column: usize) -> Result<&[u8], Refused> {
    if options > 63 || column > COLUMN {
        return Err((2, 0));
    }
    if line.len() > DOCUMENT {
        return Err((3, DOCUMENT));
    }
    if let Some(at) = line.iter().position(|byte| *byte == b'\r') {
        return Err((4, at));
    }
    Ok(line.split(|byte| *byte == b'\n').next().unwrap())
}

/// Bytes and columns of the indentation: three columns at most, or all there are without option 32. A tab with more than these is not taken in part:
/// nothing can follow then that an indentation may stand before.
fn indentation(line: &[u8], options: u32, column: usize) -> Option<(usize, usize)> {
    let columns = columns_of(line, column);
    let most = if options & 32 != 0 { 3 } else { columns.len() };
    let count = columns.len().min(most);
    let taken = take(&columns, count);
    (taken.left == 0).then_some((taken.bytes, count))
}

/// Bytes taken, columns left, size, flag and mark.
fn list_item(line: &[u8], options: u32, column: usize, interrupting: bool) -> Option<[usize; 5]> {
    if options & 16 == 0 {
        return None;
    }
    let (indent, wide) = indentation(line, options, column)?;
    let from = &line[indent..];
    let digits = from.iter().take_while(|byte| byte.is_ascii_digit()).count();
    let mark = *from.get(digits)?;
    match mark {
        b'*' | b'-' if digits == 0 => {
            let marks = from.iter().filter(|byte| **byte == mark).count();
            if marks >= 3 && from.iter().all(|byte| *byte == mark || is_blank(byte)) {
                return None;
            }
        }
        b'+' if digits == 0 => (),
        b'.' | b')' if (1..=9).contains(&digits) => {
            if interrupting && &from[..digits] != b"1" {
                return None;
            }
        }
        _ => return None,
    }
    let marker = indent + digits + 1;
    // The columns of the indentation and the marker: the size counts from where the line starts, wherever that is.
    let wide = wide + digits + 1;
    let rest = &line[marker..];
    if rest.iter().all(is_blank) {
        return if interrupting { None } else { Some([marker, 0, wide + 1, 1, mark as usize]) };
    }
    let columns = columns_of(rest, column + wide);
    let count = match columns.len() {
        0 => return None,
        few @ 1..=4 => few,
        _ => 1,
    };
    let taken = take(&columns, count);
    Some([marker + taken.bytes, taken.left, wide + count, 0, mark as usize])
}

/// Whether it goes on, the bytes taken, the columns left, and the flag.
fn continuation(line: &[u8], column: usize, size: usize, blank: bool) -> [usize; 4] {
    let columns = columns_of(line, column);
    let filled = !line.iter().all(is_blank);
    let goes = if filled { !columns.is_empty() && columns.len() >= size } else { !blank };
    if !goes {
        return [0, 0, 0, usize::from(!filled && blank)];
    }
    let taken = take(&columns, size.min(columns.len()));
    [1, taken.bytes, taken.left, 0]
}

fn heading(line: &[u8], options: u32, column: usize) -> Option<Vec<Event>> {
    if options & 8 == 0 {
        return None;
    }
    let mut out = vec![];
    let pair = |out: &mut Vec<Event>, name: u8, from: usize, to: usize| {
        put(out, false, name, from);
        put(out, true, name, to);
    };
    put(&mut out, false, 11, 0);
    let (mut at, _) = indentation(line, options, column)?;
    if at > 0 {
        pair(&mut out, 14, 0, at);
    }
    let hashes = |at: usize| line[at..].iter().take_while(|byte| **byte == b'#').count();
    let opening = hashes(at);
    if !(1..=6).contains(&opening) || line.get(at + opening).is_some_and(|byte| !is_blank(byte)) {
        return None;
    }
    pair(&mut out, 12, at, at + opening);
    at += opening;
    while at < line.len() {
        let before = at;
        let name = match line[at] {
            b' ' | b'\t' => {
                at += line[at..].iter().take_while(|byte| is_blank(byte)).count();
                14
            }
            b'#' if is_blank(&line[at - 1]) => {
                at += hashes(at);
                12
            }
            _ => {
                at += line[at..].iter().take_while(|byte| !is_blank(byte)).count();
                0
            }
        };
        pair(&mut out, name, before, at);
    }
    put(&mut out, true, 11, at);
    Some(out)
}

// The calls

fn section(events: &[Event], form: Form) -> Vec<u8> {
    let mut bytes = (events.len() as u32).to_le_bytes().to_vec();
    for (event, partner) in events.iter().zip(partners(events.iter().map(|event| u8::from(event.exit)))) {
        bytes.extend_from_slice(&[u8::from(event.exit), event.name, 0, 0]);
        bytes.extend_from_slice(&(event.place as u32).to_le_bytes());
        if form == Form::Second {
            bytes.extend_from_slice(&(partner as u32).to_le_bytes());
        }
    }
    bytes
}

/// Numbers 7 and 8.
fn written(events: Vec<Event>, form: Form, output: usize, answer: Answer) -> Answer {
    if events.len() > RESULT {
        return Answer::refused(7, 0);
    }
    if output < 4 + form.width() * events.len() {
        return Answer::refused(8, 0);
    }
    Answer { section: section(&events, form), ..answer }
}

/// The answer to a question with an output and a work memory of these lengths.
pub fn answer(question: &Question, output: usize, work: usize) -> Answer {
    let Question { call, form, input, options, column, arguments } = question;
    let tried = || -> Result<Answer, Refused> {
        Ok(match call {
            Call::Read => {
                let good = check(input, *form, *options, work)?;
                let (document, events) = (good.document.len(), good.events.len());
                match form {
                    Form::Old => Answer::of(&[document, events]),
                    Form::Second => Answer::of(&[good.options as usize, document, events]),
                }
            }
            Call::Attention => {
                let (events, groups, tried) = attention(&check(input, *form, *options, work)?)?;
                let numbers = Answer::of(&[events.len(), groups, tried]);
                written(events, *form, output, numbers)
            }
            Call::Headings | Call::Lists => {
                let good = check(input, *form, *options, work)?;
                let events = if *call == Call::Headings { headings(&good)? } else { lists(&good)? };
                let numbers = Answer::of(&[events.len(), 0, 0]);
                written(events, *form, output, numbers)
            }
            Call::SpaceOrTab => {
                let columns = columns_of(line_of(input, *options, *column)?, *column);
                let count = columns.len().min(arguments[1]);
                if count >= arguments[0] {
                    let taken = take(&columns, count);
                    Answer::of(&[1, taken.bytes, taken.left])
                } else {
                    Answer::default()
                }
            }
            Call::ListItem => match list_item(line_of(input, *options, *column)?, *options, *column, arguments[0] != 0) {
                Some([taken, left, size, blank, mark]) => Answer::of(&[1, taken, left, size, blank, mark]),
                None => Answer::default(),
            },
            Call::Continuation => Answer::of(&continuation(line_of(input, *options, *column)?, *column, arguments[0], arguments[1] != 0)),
            Call::Heading => match heading(line_of(input, *options, *column)?, *options, *column) {
                Some(events) => {
                    let numbers = Answer::of(&[1, events.len()]);
                    written(events, *form, output, numbers)
                }
                None => Answer::default(),
            },
        })
    };
    tried().unwrap_or_else(|(number, place)| Answer::refused(number, place))
}

#[cfg(test)]
mod tests {
    use super::{answer, class, class_after, class_before, Answer, Call, Class, Form, Question, PUNCTUATION, SPACES, WORK};

    fn numbers(call: Call, line: &str, column: usize, arguments: [usize; 3]) -> [usize; 8] {
        answer(&Question { column, arguments, ..Question::new(call, line.into(), 59) }, 100, 0).numbers
    }

    /// Each way to count a tab that the words leave open, on the smallest line that tells it from another.
    #[test]
    fn tabs_by_hand() {
        let spaces = |line: &str, column: usize, min: usize, max: usize| {
            let [0, 0, found, taken, left, ..] = numbers(Call::SpaceOrTab, line, column, [min, max, 0]) else { panic!("refused") };
            (found, taken, left)
        };
        assert_eq!(spaces("\t", 0, 0, 1), (1, 0, 3));
        assert_eq!(spaces(" \t", 0, 0, 1), (1, 1, 0));
        assert_eq!(spaces("\t", 0, 0, 0), (1, 0, 0));
        assert_eq!(spaces("\t", 0, 2, 2), (1, 0, 2));
        assert_eq!(spaces("\t", 3, 2, 9), (0, 0, 0));
        assert_eq!(spaces("\t\t", 16_383, 5, 5), (1, 2, 0));
        let item = |line: &str, column: usize| {
            let [0, 0, found, taken, left, size, blank, _] = numbers(Call::ListItem, line, column, [0; 3]) else { panic!("refused") };
            (found, taken, left, size, blank)
        };
        assert_eq!(item("-\ta", 0), (1, 2, 0, 4, 0));
        assert_eq!(item("-\t\ta", 0), (1, 1, 2, 2, 0));
        assert_eq!(item("-\ta", 2), (1, 2, 0, 2, 0));
        assert_eq!(item("  - a", 5), (1, 4, 0, 4, 0));
        assert_eq!(item("-\t", 0), (1, 1, 0, 2, 1));
        assert_eq!([0, 1, 2, 3].map(|column| item("\t- a", column).3), [0, 5, 4, 3]);
        let going = |line: &str, size: usize| {
            let [0, 0, found, taken, left, ..] = numbers(Call::Continuation, line, 0, [size, 0, 45]) else { panic!("refused") };
            (found, taken, left)
        };
        assert_eq!(going("\t", 2), (1, 0, 2));
        assert_eq!(going("\ta", 2), (1, 0, 2));
        assert_eq!(going("\ta", 0), (1, 0, 0));
        assert_eq!(going("\ta", 5), (0, 0, 0));
        assert_eq!([0, 1].map(|column| numbers(Call::Heading, "\t#", column, [0; 3])[2]), [0, 1]);
        for call in [Call::SpaceOrTab, Call::ListItem, Call::Continuation, Call::Heading] {
            assert_eq!(numbers(call, "\r", 16_384, [0; 3])[..2], [4, 0]);
            assert_eq!(numbers(call, "\r", 16_385, [0; 3]), [2, 0, 0, 0, 0, 0, 0, 0]);
        }
    }

    /// Each refusal that form 2 has of its own, and the places of the others, on small records.
    #[test]
    fn form_2_by_hand() {
        let read = |record: &[u8]| answer(&Question { form: Form::Second, ..Question::new(Call::Read, record.to_vec(), 0) }, 0, WORK).numbers;
        let (first, document, none) = ([1, 0, 0, 0, 63], [1, 0, 0, 0, b'a'], [0; 4]);
        let events = |count: u8, events: &[[u8; 3]]| {
            let each = events.iter().flat_map(|[kind, place, partner]| [*kind, 0, 0, 0, *place, 0, 0, 0, *partner, 0, 0, 0]);
            [count, 0, 0, 0].into_iter().chain(each).collect::<Vec<u8>>()
        };
        let with = |section: &[u8]| [&first[..], &document, section].concat();
        for (record, refused) in [
            // The first section: cut, of another count, cut behind its count, with an option too many.
            (vec![1, 0, 0], (3, 0)),
            (vec![2, 0, 0, 0], (2, 0)),
            (vec![1, 0, 0, 1], (2, 0)),
            (vec![1, 0, 0, 0], (3, 0)),
            (vec![1, 0, 0, 0, 64], (2, 0)),
            // The counts behind it, a byte too many, a carriage return.
            (first.to_vec(), (3, 5)),
            ([&first[..], &[2, 0, 0, 0, b'a']].concat(), (3, 5)),
            (with(&[0; 3]), (3, 10)),
            (with(&events(1, &[[0, 0, 0]])[..15]), (3, 10)),
            (with(&[0; 5]), (3, 14)),
            ([&first[..], &[2, 0, 0, 0, b'a', b'\r'], &none].concat(), (4, 10)),
            // An event that is none, one left open whatever its number, and the numbers of a pair: the enter's, the exit's.
            (with(&events(2, &[[0, 0, 1], [2, 0, 0]])), (5, 26)),
            (with(&events(1, &[[0, 0, 9]])), (5, 26)),
            (with(&events(2, &[[0, 0, 0], [1, 1, 0]])), (5, 26)),
            (with(&events(2, &[[0, 0, 1], [1, 1, 1]])), (5, 26)),
            // The exit that leaves another than it says, though some enter has that number; and an earlier fault behind a wrong number.
            (with(&events(4, &[[0, 0, 2], [0, 0, 3], [1, 0, 0], [1, 0, 1]])), (5, 38)),
            (with(&events(4, &[[0, 0, 2], [0, 0, 2], [2, 0, 1], [1, 0, 0]])), (5, 38)),
        ] {
            let [number, place, 0, 0, 0, ..] = read(&record) else { panic!("{record:?}") };
            assert_eq!((number, place), refused, "{record:?}");
        }
        assert_eq!(read(&with(&events(4, &[[0, 0, 3], [0, 0, 2], [1, 0, 1], [1, 0, 0]]))), [0, 0, 63, 1, 4, 0, 0, 0]);
        // All 32 bits of a number count.
        let mut high = with(&events(2, &[[0, 0, 1], [1, 1, 0]]));
        assert_eq!(read(&high)[0], 0);
        high[25] = 1;
        assert_eq!(read(&high)[..2], [5, 26]);
        // What is written has room by its width, and its own numbers.
        let heading = [[0, 11, 0, 5], [0, 12, 0, 2], [1, 12, 1, 1], [0, 0, 2, 4], [1, 0, 3, 3], [1, 11, 3, 0]];
        let each = heading.iter().flat_map(|[kind, name, place, partner]| [*kind, *name, 0, 0, *place, 0, 0, 0, *partner, 0, 0, 0]);
        let record = [&first[..], &[3, 0, 0, 0], b"# a", &[6, 0, 0, 0], &each.collect::<Vec<u8>>()].concat();
        let asked = Question { form: Form::Second, ..Question::new(Call::Headings, record, 0) };
        assert_eq!(answer(&asked, 4 + 12 * 8 - 1, WORK), Answer::refused(8, 0));
        let written = answer(&asked, 4 + 12 * 8, WORK).section;
        let numbers: Vec<u8> = written[4..].chunks(12).map(|event| event[8]).collect();
        assert_eq!(numbers, [7, 2, 1, 6, 5, 4, 3, 0]);
    }

    /// Characters of each class, what is no character, and what stands beyond one.
    #[test]
    fn neighbours_by_hand() {
        let (space, mark, other) = (Class::Whitespace, Class::Punctuation, Class::Other);
        #[rustfmt::skip]
        let rows: [(&[u8], Class, Class); 34] = [
            (b"", space, space), (b" ", space, space), (b"\t", space, space), (b"\n", space, space), (b"\x0c", space, space),
            (b"\x0b", other, other), (b"\0", other, other), (b"\x7f", other, other), (b".", mark, mark), (b"~", mark, mark), (b"a", other, other),
            ("\u{a0}".as_bytes(), space, space), ("\u{3000}".as_bytes(), space, space), ("\u{85}".as_bytes(), other, other),
            ("\u{2028}".as_bytes(), other, other), ("\u{2029}".as_bytes(), other, other), ("\u{200b}".as_bytes(), other, other),
            ("\u{feff}".as_bytes(), other, other), ("«".as_bytes(), mark, mark), ("é".as_bytes(), other, other), ("「".as_bytes(), mark, mark),
            ("\u{1fbef}".as_bytes(), mark, mark), ("\u{1fbf0}".as_bytes(), other, other), ("\u{10ffff}".as_bytes(), other, other),
            // What stands beyond the character makes no difference.
            (b"\xc2\xc2\xa0", space, other), (b"\xc2\xa0\xa0", other, space), (b"\xe2\x80\xc2\xab", mark, other), (b"\xc2\xab\xe2\x80", other, mark),
            // Cut, overlong, a surrogate, above 10FFFF.
            (b"\xe3\x80", other, other), (b"\x80\x80", other, other), (b"\xc0\xa0", other, other), (b"\xe0\x80\xa0", other, other),
            (b"\xed\xa0\x80", other, other), (b"\xf4\x90\x80\x80", other, other),
        ];
        for (bytes, before, after) in rows {
            assert!(class_before(bytes, bytes.len()) == before, "before: {}", bytes.escape_ascii());
            assert!(class_after(bytes, 0) == after, "after: {}", bytes.escape_ascii());
        }
    }

    /// Every character has the class of its code point, from either side.
    #[test]
    fn sequences_as_the_language_has_them() {
        for letter in '\0'..=char::MAX {
            let mut bytes = [0; 4];
            let bytes = letter.encode_utf8(&mut bytes).as_bytes();
            let wanted = class(letter as u32);
            assert!(class_before(bytes, bytes.len()) == wanted && class_after(bytes, 0) == wanted, "{letter:?}");
        }
    }

    /// The ranges rise and stand apart, and have as many characters as Unicode 16.0.0 has of P and S.
    #[test]
    fn ranges_in_order() {
        assert!(PUNCTUATION.iter().all(|(first, last)| first <= last));
        assert!(PUNCTUATION.windows(2).all(|two| two[0].1 + 1 < two[1].0));
        assert_eq!(PUNCTUATION.iter().map(|(first, last)| last - first + 1).sum::<u32>(), 9_369);
        assert!(SPACES.iter().all(|code| !PUNCTUATION.iter().any(|(first, last)| first <= code && code <= last)));
    }
}
