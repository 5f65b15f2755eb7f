//! The stored list: a few thousand questions with the crate's answers, for the program that replays them against this library.
//!
//! Every answer is the crate's. Questions are left out that are refused, which document 01 in plain Rust says, that lie outside the domain, or on
//! which the library departs from the crate. An entry is numbers of four bytes, little endian: the call, the options, three arguments, the input's
//! length and its bytes, five numbers of the answer, the section's length and its bytes. Lines are asked at column 0. An item whose size is another
//! for a tab is left out too, and the columns left of a cut tab are not in the list.

use std::collections::BTreeSet;
use std::panic::{catch_unwind, AssertUnwindSafe};

use crate::answer::{Answer, Call, Question};
use crate::chance::Chance;
use crate::compare::{call_of, crate_line, crate_size, parts_of, resolved, resolver_of};
use crate::library::{OUTPUT, WORK};
use crate::lines::{self, Strings};
use crate::{characters, documents, domain, paper, records};
use crate_side::{write_record, Event, Settings, Start};

/// Texts that document 01 and docs/DIFFERENCES.md speak of, and their neighbours.
#[rustfmt::skip]
const TEXTS: [&str; 54] = [
    "*a*", "**a*", "*a**", "***a***", "a**b*c", "a***b***c", "a_b_c", "~~~a~~~", "*a _b* c_", "~a~", "~~a~~", "a*_b_*", "****a** b*c", "a*\0*",
    "a~~*b*~~", "a*~~b~~*", "_a__*", "*_a__", "**", "*", "", "* a *", "*a *", "*(*a*)*", "_(_a_)_", "**a**b**", "***a** b*", "*a **b***", "*a*b*c*",
    "_a_b_c_", "*a\n*b*", "*\x0ca*", "*\ta*", "a*\"b\"*", "*.a.*", "_.a._", "__a__", "_a*b_c*", "~~a~", "~a~~", "~a ~~b~~ c~", "~~a~~b~~",
    "*****a*****", "******a******", "**a***b*", "*a**b*", "*a**b**c*", "***a*b**", "a *** b", "\x7f*a*\x7f", "__a_b__", "~*a*~", "*~a~*",
    "*a* *b* _c_ __d__ ~~e~~",
];

/// Documents that bring out what the three resolvers do.
#[rustfmt::skip]
const DOCUMENTS: [&str; 33] = [
    "- a\n- b\n- c", "- a\n* b\n+ c", "1. a\n2. b\n3) c", "- a\n\n- b\n\n\n- c", "- a\n  - b\n    - c\n  - d\n- e", "> - a\n> - b\n\n> - c",
    "- > a\n- > b", "- - - a\n- - b", "-\n- a\n-\n\n  b", "1. a\n   - b\n\n   - c\n2. d", "* a\n\n  # *b* #\n* c",
    "# a\n## b ##\n### c # d\n#\n# #\n", "# #a\n# a # #\n# a#\n", "> # *a*\n> b\n\n# `c` [d](e) **f**", "- [ ] a\n- [x] b", "*a [b *c](d) e*\n",
    "*a `b* c` d*", "*a <b *c*> d*", "**a [*b*](c) d**", "![*a*](b) *c*", "*a\nb*\nc **d\n> e**\n", "~~a *b~~ c*", "a | *b*\n- | -\n_c_ | **d**",
    "[^1]: *a*\n\nb[^1] *c*", "<div>\n*a*\n\n*b*\n</div>", "    *a*\n\n*b*", "\\*a* *b\\*", "*a&amp;*b*",
    "-\ta\n-\tb\n\n\t-\tc", "1.\ta\n\t- b\n2.\tc", ">\t- *a*\n>\t- b", "-\t\ta\n-\t# b\t#", " \t-\t*a*\n\tb*",
];

/// Texts with quotes, dashes, spaces, letters and signs of two to four bytes beside runs.
#[rustfmt::skip]
const WIDE_TEXTS: [&str; 66] = [
    "*«a»*", "a*«b»*c", "a*« b »*c", "«*a*»", "a«*b*»c", "_«a»_", "a_«b»_c", "«_a_»", "a«_b_»c", "**«\u{a0}a\u{a0}»**", "*\u{a0}*", "*\u{a0}a*", "*a\u{a0}*",
    "a\u{a0}*b*\u{a0}c", "*\u{202f}a\u{202f}*", "*été*", "é*é*é", "_été_", "é_é_é", "l’*œuvre*", "l’_œuvre_", "*l’œuvre*, _ça_ !", "_a_–_b_", "*a*—*b*",
    "a—*b*—c", "a–_b_–c", "a*—b—*c", "_a…_b", "*a…*b", "“*a*”", "a“_b_”c", "a*“b”*c", "„*a*‘", "‹_a_›", "¿*qué*?", "¡_hola_!", "α*«β»*γ", "«_λόγος_»",
    "*λόγος*·", "_a\u{37e}_b", "これは*強調*です", "これは**「強調」**です", "これは_「強調」_です", "「*強調*」", "日本*語*", "日本_語_", "**日本語。**あ", "**日本語**。あ",
    "\u{3000}*あ*\u{3000}", "*\u{3000}あ*", "（_あ_）", "*あ、*い", "_あ_・_い_", "~~あ。~~い", "~~「あ」~~い", "a~~«b»~~c", "*😀*", "a*😀*b", "a_😀_b", "😀*a*😀", "😀_a_😀",
    "*𝐀*𝐀", "_𠮷_𠮷", "*a\u{301}*b", "*\u{200b}a*\u{feff}", "a*\u{fffd}*b",
];

/// Documents with the like.
#[rustfmt::skip]
const WIDE_DOCUMENTS: [&str; 18] = [
    "- «\u{a0}*a*\u{a0}»\n- **b**\u{a0}: c", "1. *été* – _hiver_\n2. é_é_é", "> «_a_»\n> — *b*", "# «\u{a0}*titre*\u{a0}» #\n\n*é*", "## これは**「見出し」**です ##",
    "- 日本*語*\n\n  「_あ_」\n- い", "*a [«*b*»](c)— d*", "**「[あ](b)」**い `*é*`", "*😀 <b>*é*</b> 😀*", "α | *«β»*\n- | -\n_γ_· | **δ**", "[^1]: *é*\n\n“b”[^1]*—c—*",
    "-\u{a0}a\n- b", "#\u{a0}a\n# b\u{a0}#", "1.\u{3000}a\n1. *「b」*", "-\t«*a*»\n-\té", "~~a…~~b ~~…c~~", "- a\u{b}b\n- *c\u{b}d*", "# \u{2028}a\u{2029} #\n\n*é\u{85}è*",
];

fn attention(put: &mut Vec<Question>) {
    for text in TEXTS {
        for options in [1, 3, 7, 59, 63] {
            put.push(records::split(text.as_bytes(), options));
        }
    }
    let strings = Strings::new(b"*_~ a.", 4);
    for i in 0..strings.count {
        let text = strings.get(i);
        if i < 259 || i % 4 == 1 {
            put.push(records::split(&text, [1, 3, 7][i % 3]));
        }
    }
    // Runs in, beside and across a container of every name.
    for name in (0..25).filter(|name| *name != 1) {
        let event = |exit: bool, name: u8, place: u32| Event { exit, name, place };
        let run = |at: u32| [event(false, 1, at), event(true, 1, at + 1)];
        let inside = [vec![event(false, name, 0)], run(1).to_vec(), run(3).to_vec(), vec![event(true, name, 5)]].concat();
        let across = [run(1).to_vec(), vec![event(false, name, 2)], run(3).to_vec(), vec![event(true, name, 5)]].concat();
        let beside = [
            vec![event(false, name, 0)],
            run(1).to_vec(),
            vec![event(true, name, 2), event(false, name, 2)],
            run(3).to_vec(),
            vec![event(true, name, 5)],
        ]
        .concat();
        let round = [run(1).to_vec(), vec![event(false, name, 2), event(true, name, 3)], run(3).to_vec()].concat();
        for events in [inside, across, beside, round] {
            put.push(Question::new(Call::Attention, write_record(b"[*a*]", &events), 59));
        }
    }
    let chance = &mut Chance::new(91);
    for _ in 0..400 {
        let length = chance.below_or(20, 8, 80);
        let text = records::text(chance, length);
        let options = chance.below(8) as u32;
        put.push(records::split(&text, options));
    }
    while put.len() < 1_500 {
        let question = records::attention(chance);
        if question.input.len() < 500 {
            put.push(question);
        }
    }
    // The largest that are accepted: 1,024 runs, containers 63 deep, 1,000 groups and a result of 8,000 events.
    for (marker, size, between) in [("*", 1, "a "), ("*", 1, " a"), ("_", 1, "a"), ("*", 2, "a")] {
        put.push(records::split((marker.repeat(size) + between).repeat(if between == "a" { 500 } else { 1_024 }).as_bytes(), 59));
    }
    let deep = |levels: u32| {
        let mut events: Vec<Event> = (0..levels).map(|_| Event { exit: false, name: 24, place: 0 }).collect();
        for (exit, name, place) in [(false, 1, 0), (true, 1, 1), (false, 0, 1), (true, 0, 2), (false, 1, 2), (true, 1, 3)] {
            events.push(Event { exit, name, place });
        }
        events.extend((0..levels).map(|_| Event { exit: true, name: 24, place: 3 }));
        Question::new(Call::Attention, write_record(b"*a*", &events), 59)
    };
    put.extend([1, 62, 63].map(deep));
    // Two runs of 2,000 markers and no Data between: 1,000 groups, and a result of 8,000 events.
    let text = "*".repeat(2_000) + "a" + &"*".repeat(2_000);
    let places = [(false, 0), (true, 2_000), (false, 2_001), (true, 4_001)];
    let input = write_record(text.as_bytes(), &places.map(|(exit, place)| Event { exit, name: 1, place }));
    put.push(Question::new(Call::Attention, input, 59));
}

/// What the crate's resolvers are given when it parses a document.
fn watch(put: &mut Vec<Question>, document: &[u8], options: u32) {
    let (text, settings) = (std::str::from_utf8(document).unwrap(), Settings::new(options));
    let seen = catch_unwind(AssertUnwindSafe(|| crate_side::watch_document(text, &settings))).unwrap_or_default();
    for one in seen.into_iter().filter(|one| !one.edits_before && one.before.len() < 64) {
        put.push(Question::new(call_of(one.which), write_record(document, &one.before), options));
    }
}

/// What they are given in some documents.
fn captured(put: &mut Vec<Question>) {
    for document in DOCUMENTS {
        watch(put, document.as_bytes(), 59);
        watch(put, document.as_bytes(), 63);
    }
    let chance = &mut Chance::new(92);
    for _ in 0..450 {
        let document = documents::made(chance);
        if document.len() < 250 {
            watch(put, &document, *chance.pick(&[59, 63, 27, 51]));
        }
    }
}

fn headings(put: &mut Vec<Question>) {
    let settings = Settings::new(59);
    let strings = Strings::new(b"# a.", 6);
    for i in 0..strings.count {
        let line = strings.get(i);
        if i % 3 != 0 && line.len() > 4 {
            continue;
        }
        if let Some(events) = crate_side::heading(&line, &settings, Start::default()) {
            put.push(Question::new(Call::Headings, write_record(&line, &events), 59));
        }
    }
    let chance = &mut Chance::new(93);
    put.extend((0..300).map(|_| records::headings(chance)).filter(|question| question.input.len() < 600));
    // A heading of as many events as a record holds.
    let line = [b"# ".to_vec(), b"a ".repeat(510)].concat();
    let events = crate_side::heading(&line, &settings, Start::default()).expect("a heading");
    put.push(Question::new(Call::Headings, write_record(&line, &events), 59));
}

fn lists(put: &mut Vec<Question>) {
    let chance = &mut Chance::new(94);
    put.extend((0..600).map(|_| records::lists(chance)).filter(|question| question.input.len() < 700));
    put.extend((0..3).map(|_| records::lists_at_limits(chance)));
    // The longest list: 256 items.
    let mut events = vec![];
    for i in 0..256u32 {
        for (exit, name, place) in
            [(false, 15, 0), (false, 16, 0), (false, 17, 0), (true, 17, 1), (true, 16, 1), (true, 15, 1), (false, 21, 1), (true, 21, 2)]
        {
            events.push(Event { exit, name, place: 2 * i + place });
        }
    }
    put.push(Question::new(Call::Lists, write_record(&b"-\n".repeat(256), &events), 59));
}

fn readers(put: &mut Vec<Question>) {
    let mut line = |call: Call, input: &[u8], options: u32, arguments: [usize; 3]| {
        put.push(Question { arguments, ..Question::new(call, input.to_vec(), options) });
    };
    let strings = Strings::new(b" a\n", 3);
    for i in 0..strings.count {
        for (min, max) in [(0, 0), (0, 1), (1, 1), (1, 3), (2, 1), (3, 4), (0, 9)] {
            line(Call::SpaceOrTab, &strings.get(i), 59, [min, max, 0]);
        }
    }
    let rests = ["", "a", "- -", "-\n-"];
    for indentation in 0..6 {
        for mark in ["-", "*", "+", "1.", "1)", "01.", "2.", "123456789.", "1234567890.", ".", "-*", "1-"] {
            for blanks in 0..7 {
                // A sample of the whole table, another part of it for each mark.
                let number = indentation * 7 + blanks;
                for (i, rest) in rests.iter().enumerate() {
                    if (number + i + mark.len()) % 4 == 0 {
                        let text = " ".repeat(indentation) + mark + &" ".repeat(blanks) + rest;
                        line(Call::ListItem, text.as_bytes(), if number % 2 == 0 { 59 } else { 27 }, [(number / 2 + i) % 2, 0, 0]);
                    }
                }
            }
        }
    }
    for text in ["- - -", "***", "* * *", "--", "- -", "---a", "+ + +", "_ _ _", "- - - \n", "  ---", "-\n", "1.\n", "- a\nb"] {
        for arguments in [[0, 0, 0], [1, 0, 0]] {
            line(Call::ListItem, text.as_bytes(), 59, arguments);
            line(Call::ListItem, text.as_bytes(), 43, arguments);
        }
    }
    for blanks in 0..7 {
        for rest in ["", "a", "\n", "\na", "-"] {
            for size in [0, 1, 2, 5, 9] {
                for flag in [0, 1] {
                    line(Call::Continuation, (" ".repeat(blanks) + rest).as_bytes(), 59, [size, flag, b'-' as usize]);
                }
            }
        }
    }
    for indentation in 0..5 {
        for hashes in 0..8 {
            for rest in ["", " ", "a", " a", " a #", " #a", " a # #", "\ta\t#\t", " a#b ##\nc"] {
                let text = " ".repeat(indentation) + &"#".repeat(hashes) + rest;
                line(Call::Heading, text.as_bytes(), if (indentation + hashes) % 3 == 0 { 27 } else { 59 }, [0; 3]);
            }
        }
    }
    line(Call::Heading, b"# a", 51, [0; 3]);
    line(Call::Heading, &[b"# ".to_vec(), b"#a ".repeat(800)].concat(), 59, [0; 3]);
    line(Call::SpaceOrTab, &b" ".repeat(16_384), 59, [16_384, 16_384, 0]);
    line(Call::ListItem, &[b"- ".to_vec(), b"a".repeat(16_382)].concat(), 59, [0; 3]);
    let chance = &mut Chance::new(95);
    for call in [Call::SpaceOrTab, Call::ListItem, Call::Continuation, Call::Heading] {
        let some = (0..100).map(|_| lines::line(call, chance));
        // An argument has four bytes in an entry.
        put.extend(some.filter(|question| question.input.len() < 1_000 && question.arguments.iter().all(|one| *one <= u32::MAX as usize)));
    }
}

/// Lines with tabs, all at column 0: an entry has no other.
fn tabs(put: &mut Vec<Question>) {
    let mut line = |call: Call, input: &[u8], options: u32, arguments: [usize; 3]| {
        if input.contains(&b'\t') {
            put.push(Question { arguments, ..Question::new(call, input.to_vec(), options) });
        }
    };
    let strings = Strings::new(b" \ta", 3);
    for text in (0..strings.count).map(|i| strings.get(i)) {
        for (min, max) in [(0, 0), (0, 1), (1, 2), (3, 3), (3, 9), (4, 4), (5, 5), (8, 9), (9, 12)] {
            line(Call::SpaceOrTab, &text, 59, [min, max, 0]);
        }
        for (size, flag) in [(0, 0), (1, 1), (2, 0), (3, 0), (4, 0), (4, 1), (5, 0), (8, 1), (9, 0)] {
            line(Call::Continuation, &text, 59, [size, flag, b'-' as usize]);
        }
    }
    for before in ["", " ", "\t", " \t", "   \t"] {
        for mark in ["-", "1.", "12345."] {
            for behind in ["\t", "\t\ta", " \ta", "  \ta", " \t a", "\t a", "\ta", "   \ta", "\t-\t-", "\t\n"] {
                let text = [before, mark, behind].concat();
                line(Call::ListItem, text.as_bytes(), 59, [0; 3]);
                line(Call::ListItem, text.as_bytes(), 27, [1, 0, 0]);
            }
        }
        for behind in ["#", "#\ta", "## a\t#", "#\t#\t", "\t#", "#######\ta"] {
            line(Call::Heading, [before, behind].concat().as_bytes(), 59, [0; 3]);
            line(Call::Heading, [before, behind].concat().as_bytes(), 27, [0; 3]);
        }
    }
}

/// Characters of two to four bytes: beside runs, and in records, documents and lines.
fn beyond_ascii(put: &mut Vec<Question>) {
    for text in WIDE_TEXTS {
        put.push(records::split(text.as_bytes(), 59));
        put.push(records::split(text.as_bytes(), 7));
    }
    for document in WIDE_DOCUMENTS {
        watch(put, document.as_bytes(), 59);
    }
    // One of each class and length, and the ends of some ranges with what stands beside them.
    let some: [&[&str]; 4] = [
        &["\u{a0}", "«", "é"],
        &["\u{3000}", "「", "あ"],
        &["😀", "𝐀", "\u{10ffff}"],
        &["\u{9f}", "\u{a1}", "\u{a9}", "\u{aa}", "\u{1680}", "\u{2000}", "\u{200a}", "\u{200b}", "\u{1fb93}", "\u{1fbef}", "\u{1fbf0}"],
    ];
    for characters in some {
        put.extend([b'*', b'_'].map(|marker| characters::beside(marker, characters)));
    }
    let chance = &mut Chance::new(96);
    for _ in 0..50 {
        let length = chance.below_or(24, 8, 80);
        let text = records::wide_text(chance, length);
        put.push(records::split(&text, chance.below(8) as u32));
    }
    type Make = fn(&mut Chance) -> Question;
    for (make, many) in [(records::attention as Make, 50), (records::headings, 12), (records::lists, 12)] {
        let some = (0..many).map(|_| {
            let question = make(chance);
            records::widened(&question, chance)
        });
        put.extend(some.filter(|question| question.input.len() < 500));
    }
    for call in [Call::SpaceOrTab, Call::ListItem, Call::Continuation, Call::Heading] {
        let some = (0..15).map(|_| Question { column: 0, ..lines::wide(call, chance) });
        put.extend(some.filter(|question| question.input.len() < 500 && question.arguments.iter().all(|one| *one <= u32::MAX as usize)));
    }
}

/// The crate's answer, if the question lies in the domain, is not refused, and is the crate's to decide.
fn crate_answer(question: &Question, settings: &[Settings]) -> Option<Answer> {
    if paper::answer(question, OUTPUT, WORK).numbers[0] != 0 {
        return None;
    }
    let settings = &settings[question.options as usize];
    match question.call {
        Call::Attention | Call::Headings | Call::Lists => {
            let (document, before) = parts_of(&question.input);
            if domain::bytes_outside(document).or_else(|| domain::departs(question.call, document, &before)).is_some() {
                return None;
            }
            let after = crate_side::resolve(resolver_of(question.call), document, &before, settings);
            Some(resolved(question.call, &before, &after, 0))
        }
        _ if domain::bytes_outside(&question.input).is_some() => None,
        _ => {
            let answer = crate_line(question, settings, 0);
            // An item's size is not the crate's to say where it is another for a tab.
            let paper = paper::answer(question, OUTPUT, WORK);
            crate_size(question, &paper, 0).is_none().then_some(answer)
        }
    }
}

/// Write the list. Its counts are printed.
pub fn store(file: &str) {
    let mut questions = vec![];
    let parts: [fn(&mut Vec<Question>); 7] = [attention, headings, lists, captured, readers, tabs, beyond_ascii];
    for part in parts {
        let mut put = vec![];
        part(&mut put);
        questions.append(&mut put);
    }
    questions.sort_by_key(|question| question.call);
    let settings: Vec<Settings> = (0..64).map(Settings::new).collect();
    let mut seen = BTreeSet::new();
    let mut bytes: Vec<u8> = vec![];
    let mut counts = [0usize; 8];
    for question in &questions {
        if !seen.insert((question.call, question.options, question.arguments, question.input.clone())) {
            continue;
        }
        let Some(answer) = crate_answer(question, &settings) else { continue };
        counts[question.call as usize] += 1;
        let number = |bytes: &mut Vec<u8>, value: usize| bytes.extend_from_slice(&(value as u32).to_le_bytes());
        number(&mut bytes, question.call as usize - Call::Attention as usize);
        number(&mut bytes, question.options as usize);
        question.arguments.iter().for_each(|argument| number(&mut bytes, *argument));
        number(&mut bytes, question.input.len());
        bytes.extend_from_slice(&question.input);
        // Of a resolver the crate says how many events it leaves; groups and candidates tried are not in its answer.
        let values = match question.call {
            Call::Attention | Call::Headings | Call::Lists => [answer.numbers[2], 0, 0, 0, 0],
            // The columns left of a cut tab have no place in an entry.
            Call::ListItem => [answer.numbers[2], answer.numbers[3], answer.numbers[5], answer.numbers[6], answer.numbers[7]],
            Call::Continuation => [answer.numbers[2], answer.numbers[3], answer.numbers[5], 0, 0],
            _ => [answer.numbers[2], answer.numbers[3], 0, 0, 0],
        };
        values.iter().for_each(|value| number(&mut bytes, *value));
        number(&mut bytes, answer.section.len());
        bytes.extend_from_slice(&answer.section);
    }
    std::fs::write(file, &bytes).expect("the stored list can be written");
    for call in &Call::ALL[1..] {
        println!("{}: {}", call.name(), counts[*call as usize]);
    }
    println!("{} answers, {} bytes", counts.iter().sum::<usize>(), bytes.len());
}
