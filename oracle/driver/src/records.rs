//! Records made up at random, sound and in the shape that their resolver asks for, with containers of every name; and texts split into runs.

use crate::answer::{Call, Question};
use crate::chance::Chance;
use crate::characters;
use crate::compare::parts_of;
use crate_side::{write_record, Event};

/// A record being made: its document and events grow together.
pub struct Making {
    pub document: Vec<u8>,
    pub events: Vec<Event>,
    depth: usize,
    limit: usize,
}

/// Names that a container may have where no shape rule is asked of it: all but runs.
const ANY: [u8; 24] = [0, 2, 3, 4, 5, 6, 7, 8, 9, 10, 11, 12, 13, 14, 15, 16, 17, 18, 19, 20, 21, 22, 23, 24];
/// The same without headings, and without items.
const NO_HEADING: [u8; 22] = [0, 2, 3, 4, 5, 6, 7, 8, 9, 10, 12, 13, 14, 15, 16, 17, 18, 19, 20, 21, 23, 24];
const NO_ITEM: [u8; 20] = [0, 1, 2, 5, 8, 11, 12, 13, 14, 16, 17, 18, 19, 20, 21, 22, 23, 24, 24, 24];

impl Making {
    /// A record that is to stay below some number of events.
    fn new(limit: usize) -> Making {
        Making { document: vec![], events: vec![], depth: 0, limit }
    }

    fn enter(&mut self, name: u8) {
        self.depth += 1;
        self.events.push(Event { exit: false, name, place: self.document.len() as u32 });
    }

    fn exit(&mut self, name: u8) {
        self.depth -= 1;
        self.events.push(Event { exit: true, name, place: self.document.len() as u32 });
    }

    fn pair(&mut self, name: u8, bytes: &[u8]) {
        self.enter(name);
        self.document.extend_from_slice(bytes);
        self.exit(name);
    }

    /// Whether there is room to go on, with what is open still to be left.
    fn room(&self, events: usize) -> bool {
        self.events.len() + events + self.depth <= self.limit && self.document.len() < 16_000
    }

    fn question(&self, call: Call, options: u32) -> Question {
        Question::new(call, write_record(&self.document, &self.events), options)
    }
}

const MARKERS: [u8; 3] = *b"*_~";

/// Whether the options make runs of this byte.
fn is_marker(byte: u8, options: u32) -> bool {
    match byte {
        b'*' | b'_' => options & 1 != 0,
        b'~' => options & 2 != 0,
        _ => false,
    }
}

/// A text split as the crate's tokenizer splits one that has nothing but markers in it: runs, and Data between.
pub fn split(text: &[u8], options: u32) -> Question {
    let mut events = vec![];
    let mut at = 0;
    while at < text.len() {
        let first = text[at];
        let run = is_marker(first, options);
        let length = text[at..].iter().take_while(|byte| if run { **byte == first } else { !is_marker(**byte, options) }).count();
        for (exit, place) in [(false, at), (true, at + length)] {
            events.push(Event { exit, name: u8::from(run), place: place as u32 });
        }
        at += length;
    }
    Question::new(Call::Attention, write_record(text, &events), options)
}

/// A text of some letters, with markers in about half of its places.
pub fn text(chance: &mut Chance, length: usize) -> Vec<u8> {
    const LETTERS: &[u8] = b"a b.c (d)\"e'!,-ZZ 0\n\t\x0c\x00\x7f";
    text_of(chance, length, |chance| std::slice::from_ref(chance.pick(LETTERS)))
}

/// The same of characters of one to four bytes.
pub fn wide_text(chance: &mut Chance, length: usize) -> Vec<u8> {
    text_of(chance, length, |chance| characters::letter(chance).as_bytes())
}

fn text_of(chance: &mut Chance, length: usize, letter: fn(&mut Chance) -> &'static [u8]) -> Vec<u8> {
    let few = &MARKERS[..1 + chance.below(3)];
    let dense = 1 + chance.below(4);
    let mut text = vec![];
    while text.len() < length {
        if chance.below(dense + 1) == 0 {
            text.extend_from_slice(letter(chance));
        } else {
            let marker = *chance.pick(few);
            text.resize(text.len() + 1 + chance.below_or(3, 4, 7), marker);
        }
    }
    text.truncate(characters::boundary(&text, length));
    text
}

/// A record of ASCII with characters of one to four bytes put into its document, at runs more often than elsewhere. What is behind moves on, and neither a
/// run nor an item's mark is broken up.
pub fn widened(question: &Question, chance: &mut Chance) -> Question {
    let (document, mut events) = parts_of(&question.input);
    let mut document = document.to_vec();
    let is_whole = |event: &Event| !event.exit && matches!(event.name, 1 | 17);
    for _ in 0..1 + chance.below(4 + events.len() / 8) {
        let letter = characters::letter(chance);
        // The gap behind so many events.
        let mut gap = chance.below(events.len() + 1);
        if let Some(run) = events.iter().skip(gap).position(|event| event.name == 1).filter(|_| !chance.once_in(4)) {
            gap += run + usize::from(events[gap + run].exit);
        }
        if gap > 0 && is_whole(&events[gap - 1]) || document.len() + letter.len() > 16_384 {
            continue;
        }
        let from = gap.checked_sub(1).map_or(0, |before| events[before].place as usize);
        let to = events.get(gap).map_or(document.len(), |event| event.place as usize);
        // Right behind the event before, right before the next, or between.
        let between = characters::boundary(&document, from + chance.below(to - from + 1));
        let at = *chance.pick(&[from, to, between]);
        document.splice(at..at, letter.bytes());
        events[gap..].iter_mut().for_each(|event| event.place += letter.len() as u32);
    }
    Question { input: write_record(&document, &events), ..question.clone() }
}

fn fill_attention(making: &mut Making, chance: &mut Chance, options: u32, spread: usize, names: &[u8]) {
    let mut pieces = 1 + chance.below(spread);
    while pieces > 0 && making.room(6) {
        pieces -= 1;
        match chance.below(8) {
            0 | 1 if making.depth < 62 => {
                let name = *chance.pick(names);
                making.enter(name);
                fill_attention(making, chance, options, spread / 2 + 1, names);
                making.exit(name);
            }
            2 | 3 => {
                // The byte behind a run may not be its marker.
                let letters: &[u8] = if chance.once_in(6) { b"\\*" } else { b"ab ., \nc" };
                let word: Vec<u8> = (0..1 + chance.below(3)).map(|_| *chance.pick(letters)).collect();
                let last = making.document.last().copied();
                if making.events.last().is_some_and(|event| event.name == 1) && word.first().copied() == last {
                    continue;
                }
                if chance.once_in(9) {
                    making.document.extend_from_slice(&word);
                } else {
                    making.pair(if chance.once_in(9) { *chance.pick(names) } else { 0 }, &word);
                }
            }
            _ => {
                let marker = *chance.pick(&MARKERS);
                if is_marker(marker, options) && making.document.last() != Some(&marker) {
                    let size = 1 + chance.below_or(3, 5, 9);
                    making.pair(1, &vec![marker; size]);
                }
            }
        }
    }
}

/// A byte that follows a run without an event of its own could be the run's marker. Such a run is no longer whole; the record is then dropped.
fn runs_are_whole(making: &Making) -> bool {
    making.events.iter().filter(|event| event.exit && event.name == 1).all(|event| {
        let at = event.place as usize;
        making.document.get(at) != making.document.get(at - 1)
    })
}

/// A record for attention, of some size class.
pub fn attention(chance: &mut Chance) -> Question {
    loop {
        let options = *chance.pick(&[1, 3, 7, 2, 6, 59, 63, 61, 3, 7]);
        let (limit, spread) = match chance.below(200) {
            0 => (2_048, 1_500),
            1..=5 => (400, 120),
            6..=60 => (80, 20),
            _ => (36, 10),
        };
        let mut making = Making::new(limit);
        let names: &[u8] = if chance.once_in(3) { &ANY } else { &[24, 24, 0, 2] };
        while making.room(6) {
            fill_attention(&mut making, chance, options, spread, names);
            if !chance.once_in(3) {
                break;
            }
        }
        if runs_are_whole(&making) {
            return making.question(Call::Attention, options);
        }
    }
}

/// Runs in a row or nested, up to the limits: 1,024 runs, results at 8,000 events and past it, containers 63 deep.
pub fn attention_at_limits(chance: &mut Chance) -> Question {
    let options = *chance.pick(&[1, 3, 7, 59, 63]);
    let mut making = Making::new(2_048);
    let deep = *chance.pick(&[0, 0, 1, 62, 63]);
    for _ in 0..deep {
        making.enter(24);
    }
    let runs = *chance.pick(&[16, 200, 900, 997, 1_000, 1_024]) - deep;
    let size = *chance.pick(&[1, 2, 3, 4, 8, 15]);
    let before = *chance.pick::<&[u8]>(&[b"", b"a", b" ", b"a ", b"."]);
    let between = *chance.pick::<&[u8]>(&[b"a", b" ", b"a ", b" a", b"."]);
    let kind = chance.below(4);
    for i in 0..runs {
        if making.document.len() + size + 4 > 16_384 {
            break;
        }
        let marker = match kind {
            0 => b'*',
            1 => MARKERS[i % 2],
            2 => b"*_"[usize::from(i > runs / 2)],
            _ => MARKERS[chance.below(if options & 2 != 0 { 3 } else { 2 })],
        };
        making.document.extend_from_slice(if i < runs / 2 { before } else { between });
        if making.document.last() == Some(&marker) {
            making.document.push(b'a');
        }
        making.pair(1, &vec![marker; 1 + (size + i * kind) % 5]);
    }
    for _ in 0..deep {
        making.exit(24);
    }
    if runs_are_whole(&making) {
        making.question(Call::Attention, options)
    } else {
        attention(chance)
    }
}

/// The events of headings among others, each heading in its shape.
fn fill_headings(making: &mut Making, chance: &mut Chance, spread: usize) {
    let mut pieces = 1 + chance.below(spread);
    while pieces > 0 && making.room(8) {
        pieces -= 1;
        match chance.below(6) {
            0 if making.depth < 60 => {
                let name = *chance.pick(&NO_HEADING);
                making.enter(name);
                fill_headings(making, chance, spread / 2 + 1);
                making.exit(name);
            }
            1 => making.pair(*chance.pick(&[0, 1, 12, 13, 14, 21, 24]), b"ab"),
            _ => {
                making.enter(11);
                if chance.once_in(3) {
                    making.pair(14, b"  ");
                }
                making.pair(12, b"##");
                for _ in 0..chance.below(9) {
                    if !making.room(4) {
                        break;
                    }
                    match chance.below(5) {
                        0 | 1 => making.pair(0, b"ab"),
                        2 => making.pair(12, b"#"),
                        3 => making.pair(14, b" "),
                        _ => making.document.extend_from_slice(&b" a"[..chance.below(3)]),
                    }
                }
                making.exit(11);
            }
        }
    }
}

pub fn headings(chance: &mut Chance) -> Question {
    let (limit, spread) = match chance.below(100) {
        0 => (2_048, 1_500),
        1..=9 => (300, 80),
        _ => (48, 8),
    };
    let mut making = Making::new(limit);
    fill_headings(&mut making, chance, spread);
    making.question(Call::Headings, *chance.pick(&[0, 8, 40, 59, 63]))
}

/// Items among others, each in its shape and none right behind another.
fn fill_lists(making: &mut Making, chance: &mut Chance, spread: usize, marks: &[u8]) {
    let mut pieces = 1 + chance.below(spread);
    while pieces > 0 && making.room(16) {
        pieces -= 1;
        match chance.below(12) {
            0 if making.depth < 60 => {
                let name = *chance.pick(&NO_ITEM);
                making.enter(name);
                fill_lists(making, chance, spread / 2, marks);
                making.exit(name);
            }
            1 => making.pair(*chance.pick(&NO_ITEM), b"ab"),
            2 | 3 => making.pair(*chance.pick(&[14, 21, 22, 23]), b"\n"),
            4 if making.depth < 60 => {
                let name = *chance.pick(&[14, 21, 22, 23]);
                making.enter(name);
                if chance.once_in(2) {
                    making.pair(*chance.pick(&[0, 14, 21, 24]), b">");
                } else if chance.once_in(2) {
                    fill_lists(making, chance, spread / 2, marks);
                }
                making.exit(name);
            }
            _ if making.depth < 60 => {
                if making.events.last().is_some_and(|event| event.exit && event.name == 15) {
                    making.pair(*chance.pick(&[21, 21, 21, 22, 14, 23, 0, 24]), b"\n");
                }
                let mark = *chance.pick(marks);
                making.enter(15);
                if chance.once_in(4) {
                    making.pair(14, b" ");
                }
                making.enter(16);
                if matches!(mark, b'.' | b')') != chance.once_in(9) {
                    making.pair(18, b"12");
                }
                making.pair(17, &[mark]);
                if !chance.once_in(4) {
                    making.pair(14, b" ");
                }
                making.exit(16);
                if chance.once_in(3) {
                    fill_lists(making, chance, spread / 2, marks);
                } else if chance.once_in(2) {
                    making.pair(*chance.pick(&[0, 24, 14, 21]), b"a");
                }
                making.exit(15);
            }
            _ => (),
        }
    }
}

pub fn lists(chance: &mut Chance) -> Question {
    let (limit, spread) = match chance.below(100) {
        0 => (2_048, 800),
        1..=9 => (400, 40),
        _ => (100, 8),
    };
    let mut making = Making::new(limit);
    let marks = *chance.pick::<&[u8]>(&[b"-", b"-*", b".)", b"*+-.)", b"-."]);
    fill_lists(&mut making, chance, spread, marks);
    making.question(Call::Lists, *chance.pick(&[0, 16, 48, 59, 63]))
}

/// Items within items, as deep as the limit allows.
pub fn lists_at_limits(chance: &mut Chance) -> Question {
    let mut making = Making::new(2_048);
    let levels = *chance.pick(&[1, 2, 30, 60, 61, 62]);
    let beside = 1 + chance.below(4);
    for level in 0..levels {
        for i in 0..beside {
            if i > 0 {
                making.exit(15);
                making.pair(21, b"\n");
            }
            making.enter(15);
            making.enter(16);
            making.pair(17, &[b"*+-.)"[(level * chance.below(2)) % 5]]);
            making.exit(16);
        }
    }
    for level in 0..levels {
        making.exit(15);
        if level % 3 == 0 {
            making.pair(*chance.pick(&[21, 22, 23, 0]), b"\n");
        }
    }
    making.question(Call::Lists, 59)
}
