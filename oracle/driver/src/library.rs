//! The static library, called through its C interface with buffers that are inspected whole.
//!
//! Before a call the output holds a pattern and the work memory other bytes; behind both stand guards. After it the output past the section must
//! hold the pattern still, all of it after a refusal or a finding, and the work memory must be zero.

// The binding's own file, so that the C interface is declared once. Its layout is checked there, in lines of another width.
#[cfg(feature = "library")]
#[path = "../../../bindings/rust/src/ffi.rs"]
#[rustfmt::skip]
mod ffi;

use crate::answer::{Answer, Call, Numbers, Question};
#[cfg(feature = "library")]
use crate::forms::Form;

/// Room for the largest section of the old form, and for lengths past it.
pub const OUTPUT: usize = 4 + 8 * 8_000 + 64;
/// The same of either form.
const MOST: usize = 4 + 12 * 8_000 + 96;
pub const WORK: usize = 65_536;
const EXTRA: usize = 64;
const GUARD: usize = 64;
const PATTERN: u8 = 0xa5;
const STALE: u8 = 0x5a;

/// The memory lent to calls, kept from one to the next as an embedder would.
pub struct Lent {
    output: Vec<u8>,
    work: Vec<u8>,
}

impl Lent {
    pub fn new() -> Lent {
        Lent { output: vec![PATTERN; MOST + GUARD], work: vec![STALE; WORK + EXTRA + GUARD] }
    }
}

#[cfg(feature = "library")]
fn numbers(question: &Question, output: &mut [u8], work: &mut [u8]) -> Numbers {
    let Question { call, form, input, options, column, arguments: [a, b, m] } = question;
    let (options, column) = (*options, *column);
    let resolved = |r: ffi::Resolved| [r.number, r.place, r.events, r.groups, r.tried, 0, 0, 0];
    match (call, form) {
        (Call::Read, Form::Old) => {
            let r = ffi::read(input, options, work);
            [r.number, r.place, r.document, r.events, 0, 0, 0, 0]
        }
        (Call::Read, Form::Second) => {
            let r = ffi::read2(input, work);
            [r.number, r.place, r.options, r.document, r.events, 0, 0, 0]
        }
        (Call::Attention, Form::Old) => resolved(ffi::resolve_attention(input, options, output, work)),
        (Call::Attention, Form::Second) => resolved(ffi::resolve_attention2(input, output, work)),
        (Call::Headings, Form::Old) => resolved(ffi::resolve_headings(input, options, output, work)),
        (Call::Headings, Form::Second) => resolved(ffi::resolve_headings2(input, output, work)),
        (Call::Lists, Form::Old) => resolved(ffi::resolve_lists(input, options, output, work)),
        (Call::Lists, Form::Second) => resolved(ffi::resolve_lists2(input, output, work)),
        (Call::SpaceOrTab, _) => {
            let r = ffi::space_or_tab(input, options, column, *a, *b);
            [r.number, r.place, r.found, r.taken, r.left, 0, 0, 0]
        }
        (Call::ListItem, _) => {
            let r = ffi::list_item(input, options, column, *a != 0);
            [r.number, r.place, r.found, r.taken, r.left, r.size, r.blank, r.mark]
        }
        (Call::Continuation, _) => {
            let mark = u8::try_from(*m).expect("a mark is one byte");
            let r = ffi::continuation(input, options, column, *a, *b != 0, mark);
            [r.number, r.place, r.found, r.taken, r.left, r.blank, 0, 0]
        }
        (Call::Heading, _) => {
            let r = ffi::heading(input, options, column, output);
            [r.number, r.place, r.found, r.events, 0, 0, 0, 0]
        }
    }
}

/// With no library to link, document 01 itself answers.
#[cfg(not(feature = "library"))]
fn numbers(question: &Question, output: &mut [u8], work: &mut [u8]) -> Numbers {
    let answer = crate::paper::answer(question, output.len(), work.len());
    output[..answer.section.len()].copy_from_slice(&answer.section);
    work.fill(0);
    answer.numbers
}

/// Whether all bytes are this one: the first is, and each is as the one before it. Two slices compare faster than byte after byte.
fn all(bytes: &[u8], value: u8) -> bool {
    bytes.is_empty() || bytes[0] == value && bytes[1..] == bytes[..bytes.len() - 1]
}

/// The library's answer, with an output and a work memory of these lengths; or what it did to the buffers that it may not.
pub fn answer(question: &Question, output: usize, work: usize, lent: &mut Lent) -> Result<Answer, &'static str> {
    let writes = matches!(question.call, Call::Attention | Call::Headings | Call::Lists | Call::Heading);
    let (output, work) = (if writes { output } else { 0 }, if question.call.takes_record() { work } else { 0 });
    lent.output[..output + GUARD].fill(PATTERN);
    lent.work[..work + GUARD].fill(STALE);
    let numbers = numbers(question, &mut lent.output[..output], &mut lent.work[..work]);
    let events = match question.call {
        Call::Attention | Call::Headings | Call::Lists => numbers[2],
        Call::Heading => numbers[3],
        _ => 0,
    };
    let found = numbers[0] == 0 && writes && (question.call != Call::Heading || numbers[2] == 1);
    let length = if found { 4 + question.form.width() * events } else { 0 };
    if length > output {
        return Err("more events answered than the output has room for");
    }
    if !all(&lent.output[length..output + GUARD], PATTERN) {
        return Err(if found { "output changed past the section" } else { "output changed though nothing is written" });
    }
    if !all(&lent.work[..work], 0) {
        return Err("work memory not zero");
    }
    if !all(&lent.work[work..work + GUARD], STALE) {
        return Err("bytes behind the work memory changed");
    }
    Ok(Answer { numbers, section: lent.output[..length].to_vec() })
}

/// What the library makes of a line for its own resolver, if it reads a heading there, at a column: the line with the section that it writes, as a
/// record.
pub fn heading_record(line: &[u8], options: u32, column: usize, lent: &mut Lent) -> Result<Option<Question>, &'static str> {
    let read = answer(&Question { column, ..Question::new(Call::Heading, line.to_vec(), options) }, OUTPUT, WORK, lent)?;
    if read.section.is_empty() {
        return Ok(None);
    }
    let input = [&(line.len() as u32).to_le_bytes(), line, &read.section].concat();
    Ok(Some(Question::new(Call::Headings, input, options)))
}
