//! The two forms of a record, and a record of the old form in form 2: the options in front, and behind each event its partner's number.
//!
//! Whatever bytes the old form has, its record in form 2 is good or wrong for the same cause. So form 2 has to answer what the old form answers: the same
//! number, at the place where the same thing stands in form 2, or the same events, with the partners that they have among themselves.

use crate::answer::{Answer, Call, Question};

#[derive(Clone, Copy, Debug, PartialEq, Eq, PartialOrd, Ord)]
pub enum Form {
    Old,
    Second,
}

impl Form {
    pub const ALL: [Form; 2] = [Form::Old, Form::Second];

    /// The bytes before the document's count: none, or a section of count 1 with the option byte.
    pub fn front(self) -> usize {
        match self {
            Form::Old => 0,
            Form::Second => 5,
        }
    }

    /// The bytes of an event.
    pub fn width(self) -> usize {
        match self {
            Form::Old => 8,
            Form::Second => 12,
        }
    }

    /// Where the events begin, if the document's count says so. The count need not be true.
    pub fn events_at(self, record: &[u8]) -> Option<usize> {
        let count = record.get(self.front()..self.front() + 4)?;
        Some(self.front() + 8 + u32::from_le_bytes([count[0], count[1], count[2], count[3]]) as usize)
    }
}

/// The number of each event's partner, by the events' kinds: an exit leaves the latest enter that is not left yet. One that has no partner has its own
/// number, as has what is neither.
pub fn partners(kinds: impl Iterator<Item = u8>) -> Vec<usize> {
    let mut partners = vec![];
    let mut open = vec![];
    for (i, kind) in kinds.enumerate() {
        partners.push(i);
        match kind {
            0 => open.push(i),
            1 => {
                if let Some(enter) = open.pop() {
                    (partners[enter], partners[i]) = (i, enter);
                }
            }
            _ => (),
        }
    }
    partners
}

/// Events of the old form as form 2 has them. Bytes behind the last whole one stay.
fn with_partners(events: &[u8]) -> Vec<u8> {
    let whole = events.chunks_exact(Form::Old.width());
    let rest = whole.remainder();
    let mut out = Vec::with_capacity(events.len() / 2 * 3);
    for (event, partner) in whole.clone().zip(partners(whole.map(|event| event[0]))) {
        out.extend_from_slice(event);
        out.extend_from_slice(&(partner as u32).to_le_bytes());
    }
    out.extend_from_slice(rest);
    out
}

impl Question {
    /// The same question on the same record in form 2. Options that no byte can say are as much too large there.
    pub fn in_form_2(&self) -> Question {
        let length = self.input.len();
        let (head, events) = self.input.split_at(Form::Old.events_at(&self.input).map_or(length, |at| at.min(length)));
        let first = [1, 0, 0, 0, self.options.min(255) as u8];
        let input = [&first, head, &with_partners(events)].concat();
        Question { form: Form::Second, ..Question::new(self.call, input, self.options) }
    }
}

/// The place in form 2 of what stands at a place of this record.
fn place_in_form_2(record: &[u8], place: usize) -> usize {
    let (old, new) = (Form::Old, Form::Second);
    match Form::Old.events_at(record) {
        Some(at) if at <= place => at + new.front() - old.front() + (place - at) / old.width() * new.width(),
        _ => place + new.front() - old.front(),
    }
}

impl Answer {
    /// What form 2 has to answer where the old form answers this to a question.
    pub fn in_form_2(&self, question: &Question) -> Answer {
        let [number, place, rest @ ..] = self.numbers;
        let mut answer = self.clone();
        if matches!(number, 3..=6) {
            answer.numbers[1] = place_in_form_2(&question.input, place);
        }
        // A record that is read says its options.
        if number == 0 && question.call == Call::Read {
            answer.numbers = [0, 0, question.options as usize, rest[0], rest[1], 0, 0, 0];
        }
        if let Some((count, events)) = self.section.split_at_checked(4) {
            answer.section = [count, &with_partners(events)].concat();
        }
        answer
    }
}

/// An output for form 2 with room for as many events as this one has room for in the old form: so a result fits in both or in neither. What is exactly
/// enough, up to three bytes more or up to four short, is so in form 2 too.
pub fn room_in_form_2(output: usize) -> usize {
    let (old, new) = (Form::Old.width(), Form::Second.width());
    let Some(room) = output.checked_sub(4) else { return output };
    let (events, over) = (room / old, room % old);
    4 + new * events + if over < old / 2 { over } else { over + new - old }
}

#[cfg(test)]
mod tests {
    use super::{partners, room_in_form_2, Form};
    use crate::answer::{Answer, Call, Question};

    /// `*a*` as document 01 has it, and its result, with partners by hand.
    #[test]
    fn the_whole_case() {
        let event = |kind: u8, name: u8, place: u8| [kind, name, 0, 0, place, 0, 0, 0];
        let old = [event(0, 1, 0), event(1, 1, 1), event(0, 0, 1), event(1, 0, 2), event(0, 1, 2), event(1, 1, 3)].concat();
        let record = [&[3, 0, 0, 0], &b"*a*"[..], &[6, 0, 0, 0], &old].concat();
        let question = Question::new(Call::Attention, record, 59);
        let asked = question.in_form_2();
        assert_eq!(asked.input[..16], *b"\x01\0\0\0\x3b\x03\0\0\0*a*\x06\0\0\0");
        let numbers: Vec<u8> = asked.input[16..].chunks(12).map(|event| event[8]).collect();
        assert_eq!((asked.form, numbers), (Form::Second, vec![1, 0, 3, 2, 5, 4]));
        assert_eq!(partners([0, 0, 1, 0, 0, 1, 1, 0, 1, 1].into_iter()), [9, 2, 1, 6, 5, 4, 3, 8, 7, 0]);
        // What is wrong has its cause where it had it, and no partner that is looked at before.
        assert_eq!(partners([0, 1, 1, 7, 0, 0, 1].into_iter()), [1, 0, 2, 3, 4, 6, 5]);
        let places = [(1, 0, 0), (2, 0, 0), (3, 0, 5), (3, 7, 12), (3, 59, 88), (4, 6, 11), (5, 11, 16), (5, 59, 88), (6, 43, 64), (8, 0, 0)];
        for (number, place, wanted) in places {
            assert_eq!(Answer::refused(number, place).in_form_2(&question), Answer::refused(number, wanted), "{number} at {place}");
        }
    }

    /// No room for a count, none for an event, a byte short of one, exactly one, and so on.
    #[test]
    fn rooms() {
        for (old, new) in [(0, 0), (3, 3), (4, 4), (11, 15), (12, 16), (13, 17), (15, 19), (16, 24), (19, 27), (20, 28), (84, 124)] {
            assert_eq!(room_in_form_2(old), new);
        }
    }
}
