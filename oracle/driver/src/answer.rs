//! The calls, and an answer to any of them: the numbers of its C struct in their order, and the section it writes.

use std::fmt;

use crate::forms::Form;

#[derive(Clone, Copy, Debug, PartialEq, Eq, PartialOrd, Ord)]
pub enum Call {
    Read,
    Attention,
    Headings,
    Lists,
    SpaceOrTab,
    ListItem,
    Continuation,
    Heading,
}

impl Call {
    pub const ALL: [Call; 8] =
        [Call::Read, Call::Attention, Call::Headings, Call::Lists, Call::SpaceOrTab, Call::ListItem, Call::Continuation, Call::Heading];

    pub fn name(self) -> &'static str {
        match self {
            Call::Read => "read",
            Call::Attention => "resolve_attention",
            Call::Headings => "resolve_headings",
            Call::Lists => "resolve_lists",
            Call::SpaceOrTab => "space_or_tab",
            Call::ListItem => "list_item",
            Call::Continuation => "continuation",
            Call::Heading => "heading",
        }
    }

    /// Whether it is a record that the call takes, and not a line.
    pub fn takes_record(self) -> bool {
        matches!(self, Call::Read | Call::Attention | Call::Headings | Call::Lists)
    }

    /// The names of the numbers in an answer.
    fn fields(self, form: Form) -> &'static [&'static str] {
        match self {
            Call::Read if form == Form::Second => &["number", "place", "options", "document", "events"],
            Call::Read => &["number", "place", "document", "events"],
            Call::Attention | Call::Headings | Call::Lists => &["number", "place", "events", "groups", "tried"],
            Call::SpaceOrTab => &["number", "place", "found", "taken", "left"],
            Call::ListItem => &["number", "place", "found", "taken", "left", "size", "blank", "mark"],
            Call::Continuation => &["number", "place", "found", "taken", "left", "blank"],
            Call::Heading => &["number", "place", "found", "events"],
        }
    }
}

/// Where the size of a list item stands among the numbers of its answer.
pub const SIZE: usize = 5;

/// What is asked: a call with the bytes, the options and the other arguments.
#[derive(Clone, Debug)]
pub struct Question {
    pub call: Call,
    /// The form of the record; of a line the old one.
    pub form: Form,
    /// The record or the line.
    pub input: Vec<u8>,
    /// Beside a record of form 2 none are given: it has its own.
    pub options: u32,
    /// The column at which a line starts; of a record 0.
    pub column: usize,
    /// space-or-tab: minimum, maximum; list item: interrupting; continuation: size, flag, mark.
    pub arguments: [usize; 3],
}

impl Question {
    /// A question on a record of the old form, or on a line that starts at column 0 and needs no more.
    pub fn new(call: Call, input: Vec<u8>, options: u32) -> Question {
        Question { call, form: Form::Old, input, options, column: 0, arguments: [0; 3] }
    }

    /// The name of the call in the library.
    pub fn name(&self) -> String {
        name_in(self.form, self.call)
    }

    /// An answer to it in words.
    pub fn show(&self, answer: &Answer) -> String {
        let fields = self.call.fields(self.form);
        let mut text: Vec<String> = fields.iter().zip(answer.numbers).map(|(field, value)| format!("{field} {value}")).collect();
        if !answer.section.is_empty() {
            text.push(show_section(&answer.section, self.form));
        }
        text.join(" ")
    }
}

/// The name of a call on records of a form.
pub fn name_in(form: Form, call: Call) -> String {
    format!("{}{}", call.name(), if form == Form::Second { "2" } else { "" })
}

/// As many numbers as the longest answer has.
pub type Numbers = [usize; 8];

#[derive(Clone, Debug, PartialEq, Eq, Default)]
pub struct Answer {
    pub numbers: Numbers,
    pub section: Vec<u8>,
}

impl Answer {
    pub fn refused(number: usize, place: usize) -> Answer {
        Answer { numbers: [number, place, 0, 0, 0, 0, 0, 0], section: vec![] }
    }

    pub fn of(values: &[usize]) -> Answer {
        let mut answer = Answer::default();
        answer.numbers[2..2 + values.len()].copy_from_slice(values);
        answer
    }
}

/// `+name@place` for an enter, `-name@place` for an exit, with its partner's number behind a slash where the form has it.
fn show_section(section: &[u8], form: Form) -> String {
    if section.len() < 4 {
        return format!("{section:?}");
    }
    let number = |bytes: &[u8]| u32::from_le_bytes([bytes[0], bytes[1], bytes[2], bytes[3]]);
    section[4..]
        .chunks(form.width())
        .map(|e| match e {
            [kind @ 0..=1, name, 0, 0, numbers @ ..] if e.len() == form.width() => {
                let partner = numbers.get(4..8).map_or_else(String::new, |partner| format!("/{}", number(partner)));
                format!("{}{}@{}{partner}", if *kind == 0 { '+' } else { '-' }, name, number(numbers))
            }
            other => format!("{other:?}"),
        })
        .collect::<Vec<_>>()
        .join(" ")
}

impl fmt::Display for Question {
    fn fmt(&self, f: &mut fmt::Formatter<'_>) -> fmt::Result {
        write!(f, "{}", self.name())?;
        if self.form == Form::Old {
            write!(f, " options {}", self.options)?;
        }
        if !self.call.takes_record() {
            write!(f, " column {}", self.column)?;
        }
        match self.call {
            Call::SpaceOrTab => write!(f, " min {} max {}", self.arguments[0], self.arguments[1])?,
            Call::ListItem => write!(f, " interrupting {}", self.arguments[0])?,
            Call::Continuation => write!(f, " size {} blank {} mark {}", self.arguments[0], self.arguments[1], self.arguments[2])?,
            _ => (),
        }
        let (input, front) = (&self.input, self.form.front());
        if !self.call.takes_record() {
            return write!(f, " line \"{}\"", input.escape_ascii());
        }
        match self.form.events_at(input).filter(|at| *at <= input.len()) {
            Some(at) => {
                let (document, section) = (&input[front + 4..at - 4], &input[at - 4..]);
                if front > 0 {
                    write!(f, " first {:?}", &input[..front])?;
                }
                write!(f, " document \"{}\" events {}", document.escape_ascii(), show_section(section, self.form))
            }
            None => write!(f, " record {input:?}"),
        }
    }
}
