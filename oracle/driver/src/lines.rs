//! Lines for the four readers.

use crate::answer::{Call, Question};
use crate::chance::Chance;
use crate::characters;

/// All strings up to a length over an alphabet, by number. A letter of it is a byte, or a piece of text.
pub struct Strings {
    alphabet: Vec<&'static [u8]>,
    pub count: usize,
}

impl Strings {
    /// Over these bytes.
    pub fn new(alphabet: &'static [u8], longest: u32) -> Strings {
        Strings::over(alphabet.chunks(1).collect(), longest)
    }

    /// Over these pieces of text. No string is there twice if none of them begins with another.
    pub fn of(pieces: &[&'static str], longest: u32) -> Strings {
        Strings::over(pieces.iter().map(|piece| piece.as_bytes()).collect(), longest)
    }

    fn over(alphabet: Vec<&'static [u8]>, longest: u32) -> Strings {
        let count = (0..=longest).map(|length| alphabet.len().pow(length)).sum();
        Strings { alphabet, count }
    }

    pub fn get(&self, mut number: usize) -> Vec<u8> {
        let base = self.alphabet.len();
        let (mut length, mut some) = (0u32, 1);
        while number >= some {
            number -= some;
            length += 1;
            some = base.pow(length);
        }
        let mut letters: Vec<&[u8]> = vec![];
        for _ in 0..length {
            letters.push(self.alphabet[number % base]);
            number /= base;
        }
        letters.reverse();
        letters.concat()
    }
}

fn some_of(chance: &mut Chance, letters: &[u8], most: usize, line: &mut Vec<u8>) {
    for _ in 0..chance.below(most + 1) {
        line.push(*chance.pick(letters));
    }
}

/// A number that is small, or at an edge.
fn size(chance: &mut Chance) -> usize {
    match chance.below(12) {
        0 => *chance.pick(&[16_383, 16_384, 16_385, u32::MAX as usize, usize::MAX, usize::MAX - 1]),
        1 => chance.below(40),
        _ => chance.below(8),
    }
}

/// A line that may well be what the reader looks for.
pub fn line(call: Call, chance: &mut Chance) -> Question {
    let mut line = vec![];
    let blank: &[u8] = if chance.once_in(12) { b" \t" } else { b" " };
    let most = if chance.once_in(4) { 6 } else { 3 };
    some_of(chance, blank, most, &mut line);
    let tail: &[u8] = b"ab# -*+1.)\t\x0c\x00~_";
    match call {
        Call::SpaceOrTab | Call::Continuation => some_of(chance, b" ", 8, &mut line),
        Call::ListItem => {
            match chance.below(5) {
                0 | 1 => line.push(*chance.pick(b"*+-")),
                2 => some_of(chance, b"*-", 4, &mut line),
                _ => {
                    let most = if chance.once_in(3) { 11 } else { 3 };
                    some_of(chance, b"0123456789", most, &mut line);
                    line.push(*chance.pick(b".)"));
                }
            }
            some_of(chance, b" ", 7, &mut line);
            if chance.once_in(4) {
                some_of(chance, b"*- ", 6, &mut line);
            }
        }
        _ => {
            let most = if chance.once_in(5) { 8 } else { 6 };
            some_of(chance, b"#", most, &mut line);
            some_of(chance, b" \t", 3, &mut line);
            let words = chance.below(6);
            for _ in 0..words {
                some_of(chance, b"a#.", 4, &mut line);
                some_of(chance, b" \t", 2, &mut line);
            }
        }
    }
    some_of(chance, tail, 5, &mut line);
    if chance.once_in(2_000) {
        let piece = *chance.pick::<&[u8]>(&[b" ", b"a", b" a", b" #", b"a ", b"- "]);
        let to = *chance.pick(&[16_384, 16_383, 9_000]);
        while line.len() + piece.len() <= to {
            line.extend_from_slice(piece);
        }
    }
    if chance.once_in(6) {
        line.push(b'\n');
        some_of(chance, tail, 5, &mut line);
    }
    let options = match chance.below(8) {
        0 => chance.below(64) as u32,
        1..=3 => 27,
        _ => 59,
    };
    let arguments = match call {
        Call::SpaceOrTab => [size(chance), size(chance), 0],
        Call::ListItem => [chance.below(2), 0, 0],
        Call::Continuation => [size(chance), chance.below(2), *chance.pick(b"*+-.)") as usize],
        _ => [0; 3],
    };
    Question { arguments, ..Question::new(call, line, options) }
}

/// A starting column: small, as after a few containers, or near the limit.
pub fn column(chance: &mut Chance) -> usize {
    match chance.below(10) {
        0 => 16_384 - chance.below(9),
        1 => chance.below(16_385),
        2..=4 => chance.below(40),
        _ => chance.below(9),
    }
}

/// The same with a tab for some of its spaces and tabs here and there among them, and with a starting column.
pub fn tabbed(call: Call, chance: &mut Chance) -> Question {
    let question = line(call, chance);
    let mut input = vec![];
    for byte in question.input {
        match byte {
            b' ' if chance.once_in(2) => input.push(b'\t'),
            b' ' if chance.once_in(8) => input.extend_from_slice(b" \t"),
            _ => input.push(byte),
        }
    }
    input.truncate(16_384);
    Question { input, column: column(chance), ..question }
}

/// The same, with or without tabs, with some characters of one to four bytes put in anywhere.
pub fn wide(call: Call, chance: &mut Chance) -> Question {
    let mut question = if chance.once_in(3) { tabbed(call, chance) } else { line(call, chance) };
    for _ in 0..1 + chance.below(3) {
        let letter = characters::letter(chance);
        let at = chance.below_or(8, 2, question.input.len() + 1).min(question.input.len());
        let at = characters::boundary(&question.input, at);
        if question.input.len() + letter.len() <= 16_384 {
            question.input.splice(at..at, letter.bytes());
        }
    }
    question
}

/// What the random headings are made of: spaces and tabs, `#` runs, words, one of them a form feed, and backslashes.
const PIECES: [&[u8]; 16] = [b" ", b" ", b" ", b"  ", b"\t", b" \t", b"#", b"#", b"##", b"####", b"a", b"bc", b".", b"\x0c", b"\\", b"\\#"];

/// A heading of many pieces, in any order and side by side.
pub fn heading(chance: &mut Chance) -> Vec<u8> {
    let mut line = b" ".repeat(chance.below(4));
    line.resize(line.len() + 1 + chance.below(6), b'#');
    line.push(*chance.pick(b" \t"));
    for _ in 0..chance.below_or(16, 50, 400) {
        line.extend_from_slice(chance.pick::<&[u8]>(&PIECES));
    }
    line
}
