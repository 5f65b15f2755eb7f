//! One question put to all: the library, document 01, the crate where it has an answer that counts, and the standard on the content of a heading.

use std::fmt;
use std::panic::{catch_unwind, AssertUnwindSafe};

use crate::answer::{Answer, Call, Question, SIZE};
use crate::content;
use crate::domain;
use crate::forms::{room_in_form_2, Form};
use crate::library::{self, Lent, OUTPUT, WORK};
use crate::paper;
use crate::tally::{Difference, Source, Tally};
use crate_side::{Event, Read, Resolver, Seen, Settings, Start, Taken};

/// The crate's parser does not get through a document: nothing of it can be compared.
pub const PANIC: &str = "the crate's own parser panics";

/// Markdown for the crate's parser.
#[derive(Clone, Copy)]
pub struct Markdown<'a> {
    pub bytes: &'a [u8],
    /// Taken as text, with no block structure looked for.
    pub text_alone: bool,
    /// Math and frontmatter are on too.
    pub more: bool,
}

impl fmt::Display for Markdown<'_> {
    fn fmt(&self, f: &mut fmt::Formatter<'_>) -> fmt::Result {
        let more = if self.more { ", with math and frontmatter" } else { "" };
        write!(f, "{} \"{}\"{more}", if self.text_alone { "text" } else { "Markdown" }, self.bytes.escape_ascii())
    }
}

/// What one thread works with.
pub struct Bench {
    pub tally: Tally,
    lent: Lent,
    settings: Vec<Settings>,
    settings_more: Vec<Settings>,
}

/// The crate's word on a question.
enum Word {
    Says(Answer),
    /// It has none that counts: the bytes are not such as it takes, or its rule is not the library's here. Document 01 decides alone.
    Silent(&'static str),
    Panics,
}

pub fn resolver_of(call: Call) -> Resolver {
    match call {
        Call::Headings => Resolver::Headings,
        Call::Lists => Resolver::Lists,
        _ => Resolver::Attention,
    }
}

pub fn call_of(which: Resolver) -> Call {
    match which {
        Resolver::Attention => Call::Attention,
        Resolver::Headings => Call::Headings,
        Resolver::Lists => Call::Lists,
    }
}

/// How many groups are there in a list of events: enters of emphasis, strong and strikethrough.
fn groups_in(events: &[Event]) -> usize {
    events.iter().filter(|event| !event.exit && matches!(event.name, 2 | 5 | 8)).count()
}

/// The crate's events as an answer. It does not count the candidates that it tries: that number is left for document 01 to say.
pub fn resolved(call: Call, before: &[Event], after: &[Event], tried: usize) -> Answer {
    let mut section = vec![];
    crate_side::write_section(after, &mut section);
    let groups = if call == Call::Attention { groups_in(after) - groups_in(before).min(groups_in(after)) } else { 0 };
    Answer { section, ..Answer::of(&[after.len(), groups, tried]) }
}

/// The crate's heading as an answer.
fn headed(events: &[Event]) -> Answer {
    let mut section = vec![];
    crate_side::write_section(events, &mut section);
    Answer { section, ..Answer::of(&[1, events.len()]) }
}

/// The crate's answer to a line. So many columns of the tab in front, if one stands there, lie behind the starting column.
pub fn crate_line(question: &Question, settings: &Settings, within: usize) -> Answer {
    let Question { call, input, column, arguments: [a, b, _], .. } = question;
    let start = Start { column: *column, within };
    match call {
        Call::SpaceOrTab => crate_side::space_or_tab(input, settings, start, *a, *b)
            .map_or_else(Answer::default, |Taken { bytes, left }| Answer::of(&[1, bytes, left])),
        Call::ListItem => crate_side::list_item(input, settings, start, *a != 0).map_or_else(Answer::default, |item| {
            Answer::of(&[1, item.taken.bytes, item.taken.left, item.size, usize::from(item.blank), usize::from(item.mark)])
        }),
        Call::Continuation => {
            let going = crate_side::continuation(input, settings, start, *a, *b != 0);
            let Taken { bytes, left } = going.taken.unwrap_or(Taken { bytes: 0, left: 0 });
            Answer::of(&[usize::from(going.taken.is_some()), bytes, left, usize::from(going.blank)])
        }
        _ => crate_side::heading(input, settings, start).map_or_else(Answer::default, |events| headed(&events)),
    }
}

/// An item's size as the crate has it, where ours is another, and why. Ours counts columns. The crate counts bytes and those columns that it took of a
/// cut tab, so that a tab that is taken whole is one; and where the line starts within a tab, it counts four columns for that tab less those behind,
/// which is right only if the tab began at a stop. All else is the same, and where no such tab is taken, so is the size.
pub fn crate_size(question: &Question, answer: &Answer, within: usize) -> Option<(usize, &'static str)> {
    let [0, _, 1, taken, _, ours, ..] = answer.numbers else { return None };
    let (mut column, mut more, mut less, mut cause) = (question.column, 0, 0, WHOLE);
    for (i, byte) in question.input.iter().enumerate().take(taken) {
        let wide = if *byte == b'\t' { 4 - column % 4 } else { 1 };
        let counted = if i == 0 && within > 0 { 4 - within } else { 1 };
        if i == 0 && within > 0 && counted != wide {
            cause = BEGUN;
        }
        (column, more, less) = (column + wide, more + counted, less + wide);
    }
    let size = (ours + more).saturating_sub(less);
    (question.call == Call::ListItem && size != ours).then_some((size, cause))
}

/// The document and the events of a record that document 01 accepts.
pub fn parts_of(record: &[u8]) -> (&[u8], Vec<Event>) {
    let length = u32::from_le_bytes([record[0], record[1], record[2], record[3]]) as usize;
    (&record[4..4 + length], crate_side::read_section(&record[4 + length..]))
}

/// Why a record that the crate made is refused, as far as that is known to happen.
fn cause_of(question: &Question, number: usize, place: usize) -> &'static str {
    let (document, events) = parts_of(&question.input);
    let event = place.saturating_sub(8 + document.len()) / 8;
    if number == 5 && event == events.len() {
        return UNPAIRED;
    }
    if event == 0 || event > events.len() {
        return "unknown";
    }
    let (before, here) = (events[event - 1], events[event]);
    match number {
        5 if here.place < before.place && here.exit && before.exit => FALLING,
        5 if here.place < before.place && here.name == 0 && document[here.place as usize] == b'^' => BACK,
        5 if here.exit && matches!(here.name, 19 | 20) && crossed(&events[..=event]) => CROSSED,
        5 if here.exit && here.place >= before.place => UNPAIRED,
        6 if question.call == Call::Lists && before.exit && before.name == 15 && !here.exit && here.name == 15 => BEHIND,
        _ => "unknown",
    }
}

/// Whether the last of these events leaves a list while another list is open within it.
fn crossed(events: &[Event]) -> bool {
    let mut open = vec![];
    let (last, before) = events.split_last().unwrap();
    for event in before {
        if event.exit {
            open.pop();
        } else {
            open.push(event.name);
        }
    }
    open.last().is_some_and(|name| matches!(name, 19 | 20) && *name != last.name)
}

/// The causes that docs/DIFFERENCES.md lists.
pub const BEHIND: &str = "an item right behind an item";
pub const CROSSED: &str = "lists that cross, since an item stood right behind an item";
pub const FALLING: &str = "an exit before the exit within it";
pub const BACK: &str = "Data that goes back to the `^` of a footnote's label";
pub const UNPAIRED: &str = "events that do not pair, since frontmatter was looked for";
pub const WHOLE: &str = "a tab that is taken whole is one in an item's size";
pub const BEGUN: &str = "a tab within which an item's line starts counts in its size as if it had begun at a stop";

/// The same events with no place below the one before.
fn raised(events: &[Event]) -> Vec<Event> {
    let mut least = 0;
    let raise = |event: &Event| {
        least = event.place.max(least);
        Event { place: least, ..*event }
    };
    events.iter().map(raise).collect()
}

/// A number that comes from the question alone, so that its buffers are the same in every run, on whichever thread it is put.
fn turn_of(question: &Question) -> usize {
    let more = [question.call as u64, u64::from(question.options), question.column as u64];
    let numbers = question.arguments.iter().map(|argument| *argument as u64).chain(more);
    let mix = |sum: u64, value: u64| (sum ^ value).wrapping_mul(0x0000_0100_0000_01b3);
    let sum = question.input.iter().map(|byte| u64::from(*byte)).chain(numbers).fold(0xcbf2_9ce4_8422_2325, mix);
    (sum >> 16) as usize
}

/// How many events are open at most.
fn depth_of(events: &[Event]) -> usize {
    let (mut depth, mut most) = (0usize, 0);
    for event in events {
        depth = if event.exit { depth.saturating_sub(1) } else { depth + 1 };
        most = most.max(depth);
    }
    most
}

/// The line that a heading was read from: its bytes, if these events are what the reader makes of them.
fn line_read<'a>(document: &'a [u8], heading: &[Event]) -> Option<&'a [u8]> {
    let (from, to) = (heading.first()?.place, heading.last()?.place);
    let line = &document[from as usize..to as usize];
    // The option for headings alone: indentation is free then.
    let question = Question::new(Call::Heading, line.to_vec(), 8);
    let moved: Vec<Event> = heading.iter().map(|event| Event { place: event.place - from, ..*event }).collect();
    let mut section = vec![];
    crate_side::write_section(&moved, &mut section);
    (paper::answer(&question, OUTPUT, WORK).section == section).then_some(line)
}

/// The events of a heading's text, from the first of that name to the last.
fn text_in(heading: &[Event]) -> &[Event] {
    let named = |event: &Event| event.name == 13;
    let first = heading.iter().position(named).unwrap_or(heading.len());
    let end = heading.iter().rposition(named).map_or(heading.len(), |last| last + 1);
    &heading[first..end]
}

impl Bench {
    pub fn new() -> Bench {
        Bench {
            tally: Tally::default(),
            lent: Lent::new(),
            settings: (0..64).map(Settings::new).collect(),
            settings_more: (0..64).map(|options| Settings::new(options).with_math_and_frontmatter()).collect(),
        }
    }

    fn settings(&self, options: u32) -> &Settings {
        &self.settings[options as usize & 63]
    }

    /// What the crate says to a question that document 01 answers like this. `known` is its answer where it was seen at work.
    fn ask_crate(&self, question: &Question, paper: &Answer, known: Option<Answer>) -> Word {
        let settings = self.settings(question.options);
        if question.call.takes_record() {
            let (document, before) = parts_of(&question.input);
            if let Some(reason) = domain::bytes_outside(document).or_else(|| domain::departs(question.call, document, &before)) {
                return Word::Silent(reason);
            }
            if let Some(mut answer) = known {
                answer.numbers[4] = paper.numbers[4];
                return Word::Says(answer);
            }
            let run = || crate_side::resolve(resolver_of(question.call), document, &before, settings);
            return catch_unwind(AssertUnwindSafe(run))
                .map_or(Word::Panics, |after| Word::Says(resolved(question.call, &before, &after, paper.numbers[4])));
        }
        if let Some(reason) = domain::bytes_outside(&question.input) {
            return Word::Silent(reason);
        }
        catch_unwind(AssertUnwindSafe(|| crate_line(question, settings, 0))).map_or(Word::Panics, Word::Says)
    }

    fn differ(&mut self, kind: &str, question: &Question, source: Source, ours: &str, theirs: &str, document: Option<Markdown>) {
        let kind = format!("{}, {:?}: {}", question.name(), source, kind);
        let mut text = format!("{question}\n    library: {ours}\n    {theirs}");
        if let Some(markdown) = document {
            text = format!("{markdown}\n    {text}");
        }
        let input = document.map_or_else(|| question.input.clone(), |markdown| markdown.bytes.to_vec());
        let again = document.map(|markdown| (markdown.text_alone, markdown.more));
        self.tally.differ(kind, Difference { count: 1, input, options: question.options, text, again });
    }

    /// The library's answer, which is counted. What it did to the buffers that it may not is a difference.
    fn ask_library(&mut self, question: &Question, source: Source, output: usize, work: usize, document: Option<Markdown>) -> Option<Answer> {
        match library::answer(question, output, work, &mut self.lent) {
            Ok(answer) => {
                self.tally.count(question, source, &answer);
                Some(answer)
            }
            Err(fault) => {
                self.differ(fault, question, source, fault, "", document);
                None
            }
        }
    }

    /// Put the same record to the same call of form 2, and hold its answer against that of the old form.
    fn hold_form_2(&mut self, question: &Question, source: Source, output: usize, work: usize, old: &Answer, document: Option<Markdown>) {
        let again = question.in_form_2();
        let Some(ours) = self.ask_library(&again, source, room_in_form_2(output), work, document) else { return };
        let wanted = old.in_form_2(question);
        if ours != wanted {
            let (us, it) = (again.show(&ours), again.show(&wanted));
            self.differ("not as the old form", &again, source, &us, &format!("old form: {it}"), document);
        }
    }

    /// Put a question with given buffers to the library and to document 01; a record of the old form to the call of form 2 too; and, if it is accepted, to
    /// the crate. `known` is the crate's answer where it was seen at work, and `document` the Markdown it was at work on.
    fn put(&mut self, question: &Question, source: Source, output: usize, work: usize, known: Option<Answer>, document: Option<Markdown>) {
        let paper = paper::answer(question, output, work);
        let Some(ours) = self.ask_library(question, source, output, work, document) else { return };
        if ours != paper {
            let (us, it) = (question.show(&ours), question.show(&paper));
            self.differ("not as document 01", question, source, &us, &format!("document 01: {it}"), document);
        }
        if question.form == Form::Second {
            return;
        }
        if question.call.takes_record() {
            self.hold_form_2(question, source, output, work, &ours, document);
        }
        if paper.numbers[0] != 0 {
            if let Some(answer) = known.filter(|_| !matches!(paper.numbers[0], 7 | 8)) {
                let cause = cause_of(question, paper.numbers[0], paper.numbers[1]);
                let kind = format!("a record of the crate's own is refused with {}: {cause}", paper.numbers[0]);
                let (us, it) = (question.show(&ours), question.show(&answer));
                self.differ(&kind, question, source, &us, &format!("crate: {it}"), document);
            }
            return;
        }
        if question.call == Call::Read {
            return;
        }
        if question.call == Call::Headings {
            self.hold_contents(question, source, &ours, document);
        }
        if let Some(mut seen) = known.clone().filter(|_| !question.call.takes_record()) {
            // The events of a document do not show an item's size and flag.
            if question.call == Call::ListItem {
                seen.numbers[SIZE..SIZE + 2].copy_from_slice(&ours.numbers[SIZE..SIZE + 2]);
            }
            self.tally.read += 1;
            if seen != ours {
                let (us, it) = (question.show(&ours), question.show(&seen));
                self.differ("not as the crate reads it in a document", question, source, &us, &format!("crate: {it}"), document);
            }
        }
        let word = self.ask_crate(question, &paper, known);
        if let Word::Says(_) = word {
            *self.tally.answered.entry(question.call).or_default() += 1;
        }
        match word {
            Word::Says(answer) => {
                self.hold(question, source, &ours, &answer, 0, document);
                self.ask_within(question, source, &ours, document);
            }
            Word::Silent(reason) => *self.tally.skipped.entry((question.call, reason)).or_default() += 1,
            Word::Panics => *self.tally.panics.entry((question.call, source)).or_default() += 1,
        }
    }

    /// Hold the crate's answer against ours. An item's size may be another, by as much as it has to be and no more.
    fn hold(&mut self, question: &Question, source: Source, ours: &Answer, theirs: &Answer, within: usize, document: Option<Markdown>) {
        let counted = crate_size(question, ours, within);
        let mut wanted = ours.clone();
        if let Some((size, _)) = counted {
            wanted.numbers[SIZE] = size;
        }
        let kind = match counted {
            _ if *theirs != wanted => "not as the crate",
            Some((_, cause)) => cause,
            None => return,
        };
        let (us, it) = (question.show(ours), question.show(theirs));
        let where_it_starts = if within > 0 { format!(", {within} columns into the tab") } else { String::new() };
        self.differ(kind, question, source, &us, &format!("crate{where_it_starts}: {it}"), document);
    }

    /// A line that begins with a tab and starts between two stops may start within that tab: a container took its first columns. The library is not
    /// told; the crate is asked as it then stands, once for each column at which the tab can have begun.
    fn ask_within(&mut self, question: &Question, source: Source, ours: &Answer, document: Option<Markdown>) {
        if question.call.takes_record() || question.input.first() != Some(&b'\t') {
            return;
        }
        for within in 1..=question.column % 4 {
            let run = || crate_line(question, self.settings(question.options), within);
            match catch_unwind(AssertUnwindSafe(run)) {
                Ok(answer) => {
                    self.tally.within += 1;
                    self.hold(question, source, ours, &answer, within, document);
                }
                Err(_) => *self.tally.panics.entry((question.call, source)).or_default() += 1,
            }
        }
    }

    /// Hold what the library makes of a record's headings against the standard: a text with one Data pair in it goes round the content of the
    /// line, or there is neither.
    fn hold_contents(&mut self, question: &Question, source: Source, ours: &Answer, document: Option<Markdown>) {
        let (bytes, before) = parts_of(&question.input);
        let after = if ours.numbers[0] == 0 { crate_side::read_section(&ours.section) } else { vec![] };
        let mut resolved = domain::headings_in(&after);
        for heading in domain::headings_in(&before) {
            let text = resolved.next().map(text_in);
            let Some(line) = line_read(bytes, heading) else { continue };
            let content = content::content_of(line);
            let round = [(false, 13, content.start), (false, 0, content.start), (true, 0, content.end), (true, 13, content.end)];
            let round = round.map(|(exit, name, at)| Event { exit, name, place: heading[0].place + at as u32 });
            self.tally.contents += 1;
            self.tally.contents_with_runs += u64::from(domain::has_run_at_end(heading));
            if text != Some(if content.is_empty() { &[] } else { &round }) {
                let it = format!("standard: the content of \"{}\" is \"{}\"", line.escape_ascii(), line[content].escape_ascii());
                return self.differ("not as the standard's content", question, source, &question.show(ours), &it, document);
            }
        }
    }

    /// Put a question. The output is mostly as long as the section needs, at times longer, and at times a byte short, which is number 8.
    pub fn ask(&mut self, question: &Question, source: Source) {
        self.ask_known(question, source, None, None);
    }

    fn ask_known(&mut self, question: &Question, source: Source, known: Option<Answer>, document: Option<Markdown>) {
        let turn = turn_of(question);
        let length = match &known {
            // The library's section is as long as the crate's, but for headings.
            Some(answer) if question.call != Call::Headings => answer.section.len(),
            _ => paper::answer(question, OUTPUT, WORK).section.len(),
        };
        let exact = length.min(OUTPUT);
        let (output, work) = match turn % 32 {
            3 => (OUTPUT, WORK + turn / 32 % 64),
            7 => (exact + turn / 32 % (OUTPUT - exact + 1), WORK),
            11 => (exact.saturating_sub(1 + turn / 32 % 9), WORK),
            _ => (exact, WORK),
        };
        self.put(question, source, output, work, known, document);
    }

    /// Put a question with lengths of one's own.
    pub fn ask_lengths(&mut self, question: &Question, source: Source, output: usize, work: usize) {
        self.put(question, source, output, work, None, None);
    }

    /// Put a line to the heading reader, and what the library reads there to its resolver.
    pub fn read_and_resolve(&mut self, line: Vec<u8>, options: u32, source: Source) {
        let record = library::heading_record(&line, options, 0, &mut self.lent);
        self.ask(&Question::new(Call::Heading, line, options), source);
        // What it may have done to the buffers instead is told by the first of the two.
        if let Ok(Some(question)) = record {
            self.ask(&question, source);
        }
    }

    /// Put what the crate read in a document to the library's reader: the rest of the line, at the column where the crate stood. Without a column and a
    /// tab it is a line like all others.
    fn ask_read(&mut self, read: &Read, options: u32, source: Source, markdown: Markdown) {
        let (call, place, start, known) = match read {
            Read::Item { place, start, taken, mark } => {
                (Call::ListItem, *place, *start, Answer::of(&[1, taken.bytes, taken.left, 0, 0, usize::from(*mark)]))
            }
            Read::Heading { place, start, events } => (Call::Heading, *place, *start, headed(events)),
        };
        let line: Vec<u8> = markdown.bytes[place..].iter().copied().take_while(|byte| *byte != b'\n').collect();
        if start.column == 0 && !line.contains(&b'\t') || domain::bytes_outside(&line).is_some() {
            return;
        }
        let question = Question { column: start.column, ..Question::new(call, line, options) };
        self.ask_known(&question, source, Some(known), Some(markdown));
    }

    /// Everything the crate's resolvers were seen to do with a document, or with text alone.
    pub fn watch(&mut self, markdown: Markdown, options: u32, source: Source) {
        let Markdown { bytes: document, text_alone, more } = markdown;
        let Ok(text) = std::str::from_utf8(document) else { return };
        let settings = if more { &self.settings_more[options as usize & 63] } else { self.settings(options) };
        let watch = if text_alone { crate_side::watch_text } else { crate_side::watch_document };
        let seen = match catch_unwind(AssertUnwindSafe(|| watch(text, settings))) {
            Ok(seen) => seen,
            Err(_) => {
                let text = format!("{markdown} options {options}");
                let found = Difference { count: 1, input: document.to_vec(), options, text, again: Some((text_alone, more)) };
                return self.tally.differ(format!("{PANIC}{}", if more { ", with math and frontmatter" } else { "" }), found);
            }
        };
        for Seen { which, before, after, within_tab, edits_before, read } in seen {
            let call = call_of(which);
            read.iter().for_each(|one| self.ask_read(one, options, source, markdown));
            let reason = if document.len() > 16_384 || before.len() > 2_048 || depth_of(&before) > 64 {
                Some("captured, over the record's limits")
            } else if edits_before {
                Some("captured, with edits of another resolver")
            } else {
                domain::bytes_outside(document)
            };
            if let Some(reason) = reason {
                *self.tally.skipped.entry((call, reason)).or_default() += 1;
                continue;
            }
            let question = Question::new(call, crate_side::write_record(document, &before), options);
            self.tally.captured_within += u64::from(within_tab);
            let known = resolved(call, &before, &after, 0);
            self.ask_known(&question, source, Some(known), Some(markdown));
            // Where places fall, the resolvers are compared on the events with those places raised.
            let mended = raised(&before);
            if mended != before {
                let input = crate_side::write_record(document, &mended);
                self.ask(&Question { input, ..question }, source);
            }
        }
    }
}
