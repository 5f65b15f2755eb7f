//! Characters of one to four bytes beside runs: every one there is, what is none, and some of each class for texts, records, lines and documents.

use std::collections::BTreeSet;

use crate::answer::{Call, Question};
use crate::chance::Chance;
use crate::domain::SEPARATORS;
use crate::lines::Strings;
use crate_side::{write_record, Event};

/// How many characters share a record.
pub const TOGETHER: usize = 32;

/// The patterns of a marker. `R` is a run of one marker, `C` the character. The first two have it before a run that may open or close, the others
/// behind one. By its class, whitespace, punctuation or other, a pair of patterns has these groups: with `*` none and none, none and one, one and one;
/// with `_` none and one, one and one, one and none. So a wrong class shows, whichever it is.
fn patterns(marker: u8) -> [&'static str; 4] {
    match marker {
        b'*' => [" RaCRb", " RaCR.", "bRCaR ", ".RCaR "],
        _ => [" RaCR.", "CRbR ", ".RCaR ", " RbRC"],
    }
}

/// A record of the marker's patterns with each of these in the character's place, each pattern in a container of its own. Where the marker itself would
/// stand behind a run of it there is no such pattern.
pub fn beside<T: AsRef<[u8]>>(marker: u8, characters: &[T]) -> Question {
    let mut document: Vec<u8> = vec![];
    let mut events = vec![];
    for character in characters.iter().map(T::as_ref) {
        for pattern in patterns(marker).iter().filter(|pattern| !(pattern.contains("RC") && character.first() == Some(&marker))) {
            let place = |document: &Vec<u8>| document.len() as u32;
            events.push(Event { exit: false, name: 24, place: place(&document) });
            for letter in pattern.bytes() {
                match letter {
                    b'R' => {
                        events.push(Event { exit: false, name: 1, place: place(&document) });
                        document.push(marker);
                        events.push(Event { exit: true, name: 1, place: place(&document) });
                    }
                    b'C' => document.extend_from_slice(character),
                    _ => document.push(letter),
                }
            }
            events.push(Event { exit: true, name: 24, place: place(&document) });
        }
    }
    Question::new(Call::Attention, write_record(&document, &events), 59)
}

/// In the order of their code points, so many as share a record; those on which the crate departs stand in one of their own.
fn together(characters: impl Iterator<Item = char>) -> Vec<Vec<String>> {
    let (apart, others): (Vec<String>, Vec<String>) = characters.map(String::from).partition(|one| SEPARATORS.contains(&one.as_str()));
    others.chunks(TOGETHER).chain([&apart[..]]).map(<[String]>::to_vec).collect()
}

/// Every character but a carriage return, which no record may have.
fn every() -> impl Iterator<Item = char> {
    ('\0'..=char::MAX).filter(|one| *one != '\r')
}

/// All characters, so many to a record.
pub fn all() -> Vec<Vec<String>> {
    together(every())
}

/// The characters beside which another class begins, or another length in UTF-8: the ends of all ranges, and what stands right outside. The classes are
/// the crate's, but for those of its whitespace that are other here.
pub fn edges() -> Vec<Vec<String>> {
    let listed: BTreeSet<u32> = crate_side::PUNCTUATION.iter().map(|one| u32::from(*one)).collect();
    let apart: BTreeSet<u32> = SEPARATORS.iter().flat_map(|one| one.chars()).map(u32::from).collect();
    let kind = |code: u32| char::from_u32(code).map(|one| (one.is_whitespace(), apart.contains(&code), listed.contains(&code), one.len_utf8()));
    let is_edge = |one: &char| {
        let code = u32::from(*one);
        kind(code.wrapping_sub(1)) != kind(code) || kind(code + 1) != kind(code)
    };
    together(every().filter(is_edge))
}

/// Bytes at the bounds of the forms that a sequence of UTF-8 has, and two characters of one byte.
const BOUNDS: &[u8] = b"\x80\x8f\x90\x9f\xa0\xab\xbf\xc1\xc2\xdf\xe0\xe3\xed\xef\xf0\xf4\xf5a ";

/// All sequences of up to so many of them, most of them malformed.
pub fn sequences(longest: u32) -> Strings {
    Strings::new(BOUNDS, longest)
}

/// Whitespace but for that of ASCII.
const SPACES: [&str; 7] = ["\u{a0}", "\u{a0}", "\u{202f}", "\u{2009}", "\u{3000}", "\u{1680}", "\u{205f}"];

/// Punctuation and symbols: quotes, dashes and stops of French, Greek, Japanese and others, of two, three and four bytes.
#[rustfmt::skip]
const MARKS: [&str; 40] = [
    "«", "»", "“", "”", "‘", "’", "„", "‹", "›", "–", "—", "…", "¿", "¡", "·", "\u{37e}", "\u{387}", "「", "」", "『", "』", "、", "。", "・", "〜", "！",
    "（", "）", "€", "°", "§", "×", "→", "\u{fffd}", "😀", "👍", "🎉", "𝄞", "\u{1fbef}", "\u{10fb}",
];

/// Others: letters and digits of several scripts, accents, controls and what has no class of its own.
#[rustfmt::skip]
const OTHERS: [&str; 34] = [
    "é", "ç", "œ", "ß", "ñ", "α", "ω", "λ", "ж", "א", "ع", "あ", "カ", "日", "本", "語", "中", "한", "²", "½", "٣", "\u{301}", "\u{ad}", "\u{200b}",
    "\u{200d}", "\u{feff}", "\u{fe0f}", "\u{d7ff}", "\u{e000}", "\u{ffff}", "𝐀", "𠮷", "\u{1fbf0}", "\u{10ffff}",
];

/// Of ASCII.
const PLAIN: [&str; 12] = ["a", "b", " ", " ", "\n", ".", ",", "(", ")", "\"", "-", "1"];

/// A character of any class and length. Once in a while it is one that is the crate's whitespace alone.
pub fn letter(chance: &mut Chance) -> &'static str {
    let some: &[&str] = match chance.below(80) {
        0 => &SEPARATORS,
        1..=16 => &SPACES,
        17..=42 => &MARKS,
        43..=64 => &OTHERS,
        _ => &PLAIN,
    };
    chance.pick::<&str>(some)
}

/// The last place up to this one that is not within a character.
pub fn boundary(bytes: &[u8], mut at: usize) -> usize {
    while at < bytes.len() && bytes[at] & 0xc0 == 0x80 {
        at -= 1;
    }
    at
}

#[cfg(test)]
mod tests {
    use super::{all, beside, edges};
    use crate::library::{OUTPUT, WORK};
    use crate::paper;

    /// How many groups there are in each pattern.
    fn groups(marker: u8, character: &str) -> Vec<usize> {
        let answer = paper::answer(&beside(marker, &[character]), OUTPUT, WORK);
        assert_eq!(answer.numbers[0], 0);
        let events = crate_side::read_section(&answer.section);
        let enters: Vec<u8> = events.iter().filter(|event| !event.exit && matches!(event.name, 2 | 24)).map(|event| event.name).collect();
        enters.split(|name| *name == 24).skip(1).map(<[u8]>::len).collect()
    }

    /// A pair of patterns tells the three classes from each other, before a run and behind one.
    #[test]
    fn patterns_tell_classes() {
        let three = |marker: u8| ["\u{a0}", "«", "é"].map(|character| groups(marker, character));
        assert_eq!(three(b'*'), [[0, 0, 0, 0], [0, 1, 0, 1], [1, 1, 1, 1]]);
        assert_eq!(three(b'_'), [[0, 1, 0, 1], [1, 1, 1, 1], [1, 0, 1, 0]]);
    }

    /// Every character is there once, and the ends of ranges are few.
    #[test]
    fn characters_are_counted() {
        assert_eq!(all().iter().map(Vec::len).sum::<usize>(), 1_112_063);
        assert!((1_000..2_000).contains(&edges().iter().map(Vec::len).sum::<usize>()));
    }
}
