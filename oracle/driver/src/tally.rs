//! What was compared, what was not and why, and the smallest input of each kind of difference.

use crate::answer::{name_in, Answer, Call, Question};
use crate::domain::RUN_AT_END;
use crate::forms::Form;
use std::collections::BTreeMap;

/// Where an input comes from.
#[derive(Clone, Copy, Debug, PartialEq, Eq, PartialOrd, Ord)]
pub enum Source {
    Exhaustive,
    Random,
    Captured,
    Damaged,
}

impl Source {
    pub const ALL: [Source; 4] = [Source::Exhaustive, Source::Random, Source::Captured, Source::Damaged];
}

#[derive(Clone, Debug)]
pub struct Difference {
    pub count: u64,
    /// The bytes that show it: a document if it was captured, else a record or a line.
    pub input: Vec<u8>,
    pub options: u32,
    pub text: String,
    /// If it was captured, how the document was taken, so that a smaller one can be looked at the same way: as text alone, with math and frontmatter.
    pub again: Option<(bool, bool)>,
}

#[derive(Default)]
pub struct Tally {
    compared: BTreeMap<(Form, Call, Source), u64>,
    /// How many of these the crate answered too.
    pub answered: BTreeMap<Call, u64>,
    /// Refusals, which the crate has none of.
    refused: BTreeMap<(Form, Call, usize), u64>,
    pub skipped: BTreeMap<(Call, &'static str), u64>,
    /// How many headings were held against the standard's content, and how many of them the crate does not decide.
    pub contents: u64,
    pub contents_with_runs: u64,
    /// How many lines the crate was asked for from within the tab in front.
    pub within: u64,
    /// How many items and headings were read where the crate read them in a document.
    pub read: u64,
    /// How many captured records have an event within a tab.
    pub captured_within: u64,
    pub panics: BTreeMap<(Call, Source), u64>,
    pub differences: BTreeMap<String, Difference>,
}

impl Tally {
    pub fn differ(&mut self, kind: String, found: Difference) {
        let known = self.differences.entry(kind).or_insert_with(|| Difference { count: 0, ..found.clone() });
        let count = known.count + found.count;
        if found.input.len() < known.input.len() {
            *known = found;
        }
        known.count = count;
    }

    pub fn add(&mut self, other: Tally) {
        for (key, count) in other.compared {
            *self.compared.entry(key).or_default() += count;
        }
        for (key, count) in other.answered {
            *self.answered.entry(key).or_default() += count;
        }
        for (key, count) in other.refused {
            *self.refused.entry(key).or_default() += count;
        }
        for (key, count) in other.skipped {
            *self.skipped.entry(key).or_default() += count;
        }
        self.contents += other.contents;
        self.contents_with_runs += other.contents_with_runs;
        self.within += other.within;
        self.read += other.read;
        self.captured_within += other.captured_within;
        for (key, count) in other.panics {
            *self.panics.entry(key).or_default() += count;
        }
        for (kind, difference) in other.differences {
            self.differ(kind, difference);
        }
    }

    /// An answer of the library that is compared.
    pub fn count(&mut self, question: &Question, source: Source, answer: &Answer) {
        *self.compared.entry((question.form, question.call, source)).or_default() += 1;
        if answer.numbers[0] != 0 {
            *self.refused.entry((question.form, question.call, answer.numbers[0])).or_default() += 1;
        }
    }

    /// How many answers were compared about records of a form; lines are counted with the old one.
    pub fn total(&self, form: Form) -> u64 {
        self.compared.iter().filter(|((of, ..), _)| *of == form).map(|(_, count)| count).sum()
    }

    /// How many answers of a call were compared, from each source and in all, as cells of a table.
    fn cells(&self, form: Form, call: Call) -> String {
        let counts = Source::ALL.map(|source| self.compared.get(&(form, call, source)).copied().unwrap_or(0));
        let cells: Vec<String> = counts.iter().chain([&counts.iter().sum()]).map(u64::to_string).collect();
        cells.join(" | ")
    }

    pub fn print(&self) {
        println!("| call | exhaustive | random | captured | damaged | in all | answered by the crate too | crate panics |");
        println!("|---|---|---|---|---|---|---|---|");
        for call in Call::ALL {
            let panics: u64 = Source::ALL.iter().filter_map(|source| self.panics.get(&(call, *source))).sum();
            let answered = self.answered.get(&call).copied().unwrap_or(0);
            println!("| {} | {} | {answered} | {panics} |", call.name(), self.cells(Form::Old, call));
        }
        println!("\nForm 2: the same records once more, compared with the old form's answers; and records damaged in form 2, with document 01.\n");
        println!("| call | exhaustive | random | captured | damaged | in all |\n|---|---|---|---|---|---|");
        for call in Call::ALL.into_iter().filter(|call| call.takes_record()) {
            println!("| {} | {} |", name_in(Form::Second, call), self.cells(Form::Second, call));
        }
        println!("\nRefusals among them, by number: compared with document 01, or with the old form.\n");
        println!("| call | 1 | 2 | 3 | 4 | 5 | 6 | 7 | 8 |\n|---|---|---|---|---|---|---|---|---|");
        for (form, call) in Form::ALL.into_iter().flat_map(|form| Call::ALL.map(|call| (form, call))) {
            if form == Form::Old || call.takes_record() {
                let cells: Vec<String> = (1..=8).map(|number| self.refused.get(&(form, call, number)).copied().unwrap_or(0).to_string()).collect();
                println!("| {} | {} |", name_in(form, call), cells.join(" | "));
            }
        }
        let (contents, with_runs) = (self.contents, self.contents_with_runs);
        println!("\nHeadings held against the standard's content: {contents}, of them with {RUN_AT_END} {with_runs}.");
        let Tally { within, read, captured_within, .. } = self;
        println!("\nItems and headings read where the crate read them in a document, behind other containers or with a tab: {read}.");
        println!("Lines that the crate was asked for again as it stands within the tab in front: {within}.");
        println!("Captured records with an event within a tab, whose place is the tab's: {captured_within}.");
        println!("\nNot compared with the crate, by reason. All but the captured ones are counted above: they are compared with document 01, and");
        println!("those with {RUN_AT_END} with the content too, where a line reads so.\n");
        println!("| call | reason | inputs |\n|---|---|---|");
        for ((call, reason), count) in &self.skipped {
            println!("| {} | {} | {} |", call.name(), reason, count);
        }
        println!();
    }
}
