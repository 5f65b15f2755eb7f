//! Copies with something wrong: bytes changed, records cut or lengthened, events lost, doubled or exchanged, options and lengths past their limits; in form 2
//! also the first section and the numbers of partners.

use crate::answer::{Call, Question};
use crate::chance::Chance;
use crate::compare::parts_of;
use crate::forms::{room_in_form_2, Form};
use crate::library::{OUTPUT, WORK};
use crate::lines;
use crate::records;
use crate_side::Event;

fn hurt(record: &mut Vec<u8>, form: Form, chance: &mut Chance) {
    let length = record.len();
    if length == 0 {
        return record.push(0);
    }
    let at = chance.below(length);
    let (front, width) = (form.front(), form.width());
    // Where the events begin, as long as the document's count still says so.
    let start = form.events_at(record).unwrap_or(length + 1);
    let events = length.saturating_sub(start) / width;
    let event = start + width * chance.below(events);
    match chance.below(if form == Form::Second { 22 } else { 14 }) {
        0 => record[at] ^= 1 << chance.below(8),
        1 => record[at] = *chance.pick(&[0, 1, 2, 13, 24, 25, 64, 128, 255]),
        2 => record.truncate(at),
        3 => (0..1 + chance.below(9)).for_each(|_| record.push(chance.below(256) as u8)),
        4 => {
            record.remove(at);
        }
        5 => record.insert(at, chance.below(256) as u8),
        6 if events > 0 => record[event + 1] = chance.below(27) as u8,
        7 if events > 0 => record[event] ^= 1,
        8 if events > 0 => record[event + 4] = record[event + 4].wrapping_add(*chance.pick(&[1, 255])),
        // An event more or less, with the count made to fit.
        9 if events > 0 => {
            let copy: Vec<u8> = record[event..event + width].to_vec();
            record.splice(event..event, copy);
            record[start - 4] = record[start - 4].wrapping_add(1);
        }
        10 if events > 0 => {
            record.drain(event..event + width);
            record[start - 4] = record[start - 4].wrapping_sub(1);
        }
        11 if events > 1 => {
            let other = start + width * chance.below(events);
            for i in 0..width {
                record.swap(event + i, other + i);
            }
        }
        12 if start <= length => record[start - 4..start].copy_from_slice(&(*chance.pick(&[0u32, 1, 2_047, 2_048, 2_049, u32::MAX])).to_le_bytes()),
        13 if length >= front + 4 => {
            record[front..front + 4].copy_from_slice(&(*chance.pick(&[0u32, 1, 16_384, 16_385, u32::MAX, u32::MAX - 7])).to_le_bytes());
        }
        // The first section of form 2: its count, and the option byte. Or cut within it, or a little behind.
        14 if length >= front => record[..4].copy_from_slice(&(*chance.pick(&[0u32, 2, 5, 256, 257, 1 << 16, 1 << 24, u32::MAX])).to_le_bytes()),
        15 if length >= front => record[front - 1] = *chance.pick(&[62, 63, 64, 65, 127, 128, 255]),
        16 => record.truncate(chance.below(front + 12)),
        // The number of a partner: near the true one, one bit of it, another's, or none that an event has. The exit of its pair is refused.
        17 | 18 if events > 0 => record[event + 8] = record[event + 8].wrapping_add(*chance.pick(&[1, 2, 254, 255])),
        19 if events > 0 => record[event + 8 + chance.below(4)] ^= 1 << chance.below(8),
        20 if events > 0 => {
            let some = chance.below(events);
            let number = *chance.pick(&[0, events - 1, events, some, u32::MAX as usize]) as u32;
            record[event + 8..event + 12].copy_from_slice(&number.to_le_bytes());
        }
        21 if events > 1 => {
            let other = start + width * chance.below(events);
            for i in 8..12 {
                record.swap(event + i, other + i);
            }
        }
        _ => record[at] = chance.below(256) as u8,
    }
}

/// A change that leaves the record sound: a pair renamed, lost or put in, a byte of the document changed. It is the shape rules that then may fail.
fn bend(question: &mut Question, chance: &mut Chance) {
    let (document, mut events) = parts_of(&question.input);
    let mut document = document.to_vec();
    let enter = chance.below(events.len());
    if events.is_empty() || events[enter].exit || chance.once_in(4) {
        if let Some(length) = document.len().checked_sub(1) {
            document[chance.below(length + 1)] = *chance.pick(b"*_~a #-+.)1\n");
        }
    } else {
        let mut depth = 0;
        let exit = (enter..events.len()).find(|i| {
            depth += if events[*i].exit { -1 } else { 1 };
            depth == 0
        });
        let exit = exit.unwrap();
        match chance.below(4) {
            0 | 1 => {
                let name = if chance.once_in(2) { *chance.pick(&[0, 1, 11, 12, 13, 14, 15, 16, 17, 18]) } else { chance.below(25) as u8 };
                (events[enter].name, events[exit].name) = (name, name);
            }
            2 => {
                events.remove(exit);
                events.remove(enter);
            }
            _ => {
                let place = events[enter].place;
                let name = *chance.pick(&[0, 1, 11, 12, 13, 14, 15, 16, 17, 18, 24]);
                events.insert(enter, Event { exit: true, name, place });
                events.insert(enter, Event { exit: false, name, place });
            }
        }
    }
    question.input = crate_side::write_record(&document, &events);
}

fn options(chance: &mut Chance, options: u32) -> u32 {
    match chance.below(40) {
        0 => *chance.pick(&[64, 65, 128, 256, 1 << 16, 1 << 31, u32::MAX]),
        1..=6 => chance.below(64) as u32,
        _ => options,
    }
}

/// A record for one of the resolvers.
fn sound(chance: &mut Chance) -> Question {
    match chance.below(3) {
        0 => records::attention(chance),
        1 => records::headings(chance),
        _ => records::lists(chance),
    }
}

/// Another call at times, and the lengths of output and work memory.
fn lengths(question: &mut Question, output: usize, chance: &mut Chance) -> (usize, usize) {
    if chance.once_in(8) {
        question.call = *chance.pick(&[Call::Read, Call::Attention, Call::Headings, Call::Lists]);
    }
    question.options = options(chance, question.options);
    let output = if chance.once_in(8) { chance.below(400) } else { output };
    let work = match chance.below(40) {
        0 => *chance.pick(&[0, 1, WORK - 1]),
        1 => WORK + 1,
        _ => WORK,
    };
    (output, work)
}

/// A hurt record, with the lengths of output and work memory.
pub fn record(chance: &mut Chance) -> (Question, usize, usize) {
    let mut question = sound(chance);
    if chance.once_in(2) {
        (0..1 + chance.below(3)).for_each(|_| bend(&mut question, chance));
    } else {
        (0..1 + chance.below(2)).for_each(|_| hurt(&mut question.input, Form::Old, chance));
    }
    let (output, work) = lengths(&mut question, OUTPUT, chance);
    (question, output, work)
}

/// The same in form 2, hurt as it stands there: an event lost takes no partner's number with it. Some are whole, so that those too are answered by
/// document 01 itself.
pub fn record_of_form_2(chance: &mut Chance) -> (Question, usize, usize) {
    let mut question = sound(chance);
    if chance.once_in(4) {
        bend(&mut question, chance);
    }
    let (output, work) = lengths(&mut question, room_in_form_2(OUTPUT), chance);
    let mut question = question.in_form_2();
    let times = if chance.once_in(4) { 0 } else { 1 + chance.below(2) };
    (0..times).for_each(|_| hurt(&mut question.input, Form::Second, chance));
    (question, output, work)
}

/// A record with characters of one to four bytes whose bytes beside runs are changed, so that most are no longer characters. It is sound still, and its
/// runs are what they were.
pub fn characters(chance: &mut Chance) -> Question {
    let question = records::attention(chance);
    let question = records::widened(&question, chance);
    let (document, events) = parts_of(&question.input);
    let mut document = document.to_vec();
    let runs: Vec<&Event> = events.iter().filter(|event| event.name == 1).collect();
    for _ in 0..if runs.is_empty() { 0 } else { 1 + chance.below(4) } {
        let run = chance.pick(&runs);
        let (at, far) = (run.place as usize, chance.below(4));
        let at = if run.exit { at + far } else { at.wrapping_sub(1 + far) };
        // No byte of a run is changed, and none becomes a marker.
        if let Some(byte) = document.get_mut(at).filter(|byte| !b"*_~".contains(byte)) {
            *byte = *chance.pick(b"\x80\x80\x8f\x90\x9f\xa0\xab\xbf\xbf\xc0\xc1\xc2\xc2\xdf\xe0\xe2\xe3\xed\xef\xf0\xf1\xf4\xf5\xff a.");
        }
    }
    Question { input: crate_side::write_record(&document, &events), ..question }
}

/// A line with bytes and lengths that no document of the domain has.
pub fn line(chance: &mut Chance) -> (Question, usize) {
    let call = *chance.pick(&[Call::SpaceOrTab, Call::ListItem, Call::Continuation, Call::Heading]);
    let mut question = if chance.once_in(2) { lines::tabbed(call, chance) } else { lines::line(call, chance) };
    for _ in 0..chance.below(3) {
        let at = chance.below(question.input.len() + 1);
        question.input.insert(at, if chance.once_in(3) { *chance.pick(b"\r\n\t\x0b\x80") } else { chance.below(256) as u8 });
    }
    if chance.once_in(200) {
        let to = *chance.pick(&[16_384, 16_385, 20_000]);
        question.input.resize(to, *chance.pick(b" a#\r\n"));
    }
    question.options = options(chance, question.options);
    if chance.once_in(20) {
        question.column = *chance.pick(&[16_383, 16_384, 16_385, 16_386, u32::MAX as usize, usize::MAX - 1, usize::MAX]);
    }
    let output = if chance.once_in(4) { chance.below(100) } else { OUTPUT };
    (question, output)
}
