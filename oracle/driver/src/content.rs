//! The content of an ATX heading, from CommonMark 0.31, section 4.2, over the bytes of its line. It knows nothing of events, nor of document 01.

use std::ops::Range;

fn is_blank(byte: &u8) -> bool {
    matches!(byte, b' ' | b'\t')
}

fn is_hash(byte: &u8) -> bool {
    *byte == b'#'
}

/// How many bytes of a kind stand at the front.
fn front(bytes: &[u8], kind: fn(&u8) -> bool) -> usize {
    bytes.iter().take_while(|byte| kind(byte)).count()
}

/// How many bytes of a kind stand at the end.
fn back(bytes: &[u8], kind: fn(&u8) -> bool) -> usize {
    bytes.iter().rev().take_while(|byte| kind(byte)).count()
}

/// Where the content of a line begins and ends. That the line is a heading is not asked here, nor how far it may be indented.
pub fn content_of(line: &[u8]) -> Range<usize> {
    let mut from = front(line, is_blank);
    from += front(&line[from..], is_hash);
    let mut to = line.len() - back(&line[from..], is_blank);
    // The closing sequence is one only where a space or tab stands before it.
    let closing = back(&line[from..to], is_hash);
    if line[from..to - closing].last().is_some_and(is_blank) {
        to -= closing;
    }
    to -= back(&line[from..to], is_blank);
    from += front(&line[from..to], is_blank);
    from..to
}

#[cfg(test)]
mod tests {
    use super::content_of;

    /// Lines of the section's own examples, and those on which the crate's text is another.
    #[test]
    fn contents_by_hand() {
        let rows: [(&str, &str); 22] = [
            ("# foo", "foo"),
            ("# foo *bar* \\*baz\\*", "foo *bar* \\*baz\\*"),
            ("#                  foo                     ", "foo"),
            ("   # foo", "foo"),
            ("  ###   bar    ###", "bar"),
            ("# foo ##################################", "foo"),
            ("### foo ###     ", "foo"),
            ("### foo ### b", "foo ### b"),
            ("# foo#", "foo#"),
            ("### foo \\###", "foo \\###"),
            ("## foo #\\##", "foo #\\##"),
            ("# foo \\#", "foo \\#"),
            ("## ", ""),
            ("#", ""),
            ("### ###", ""),
            ("#\tfoo\t#\t", "foo"),
            ("# #a", "#a"),
            ("# a # #", "a #"),
            ("# # #", "#"),
            ("# ## #", "##"),
            ("# #", ""),
            ("# a##b ", "a##b"),
        ];
        for (line, content) in rows {
            assert_eq!(&line[content_of(line.as_bytes())], content, "{line}");
        }
    }
}
