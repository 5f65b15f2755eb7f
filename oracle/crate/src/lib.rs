//! The crate markdown 1.0.0 as it is, asked through records and lines.
//!
//! Its modules are compiled from its own files (`build.rs` says where they are taken from). Two of them are replaced by ours: `lib`, which is
//! this file, and `resolve`, which calls the same resolvers by the same names and lets a watcher see the events before and after.
//!
//! - [`resolve`](fn@resolve): one of the three resolvers over the events of a record.
//! - [`Prepared`]: the same with everything but the resolver itself done beforehand, for timing.
//! - [`space_or_tab`], [`list_item`], [`continuation`], [`heading`]: one line fed to the crate's own states, from a column on.
//! - [`watch_document`], [`watch_text`]: Markdown parsed by the crate, with what its three resolvers were given and left, and where in the document
//!   the items and headings stand that it read.
//! - [`inline_html`]: a text turned into HTML, for the examples of the standard.
//! - [`PUNCTUATION`]: the crate's own list of the characters that are punctuation.
//!
//! Events are those of a record: kind, one of the names 0 to 24, and a place. Line, column, virtual spaces and links are the crate's own and dropped.
//! Options are the sum that a record's calls take; every other construct of the crate that is on in its GFM setting is on.
//! A panic of the crate goes through to the caller.

extern crate alloc;
// The crate asks for `unicode_id::UnicodeID`; its source is compiled in here, and this name leads back to it.
extern crate self as unicode_id;

include!(concat!(env!("OUT_DIR"), "/modules.rs"));
mod html;
mod readers;
mod record;
mod resolve;
mod resolvers;
mod watch;

// What the crate's modules look for at its root.
pub(crate) use configuration::{CompileOptions, ParseOptions};
pub(crate) use unicode_id_source::UnicodeID;
pub(crate) use util::line_ending::LineEnding;
pub(crate) use util::mdx::{ExpressionKind as MdxExpressionKind, ExpressionParse as MdxExpressionParse, Signal as MdxSignal};

pub use html::inline_html;
pub use readers::{continuation, heading, list_item, space_or_tab, Going, Item, Start, Taken};
pub use record::{read_section, write_record, write_section, Event, Settings};
pub use resolvers::{resolve, with_prepared, Prepared, Resolver};
pub use util::unicode::PUNCTUATION;
pub use watch::{watch_document, watch_text, Read, Seen};

#[cfg(test)]
mod tests {
    use super::*;

    fn event(exit: bool, name: u8, place: u32) -> Event {
        Event { exit, name, place }
    }

    /// The whole case that the rules of attention give, and its text run through the crate's own tokenizer: one and the same.
    #[test]
    fn the_whole_case() {
        let settings = Settings::new(59);
        let (enter, leave) = (false, true);
        let given = [event(enter, 1, 0), event(leave, 1, 1), event(enter, 0, 1), event(leave, 0, 2), event(enter, 1, 2), event(leave, 1, 3)];
        let wanted = [
            event(enter, 2, 0),
            event(enter, 3, 0),
            event(leave, 3, 1),
            event(enter, 4, 1),
            event(enter, 0, 1),
            event(leave, 0, 2),
            event(leave, 4, 2),
            event(enter, 3, 2),
            event(leave, 3, 3),
            event(leave, 2, 3),
        ];
        assert_eq!(resolve(Resolver::Attention, b"*a*", &given, &settings), wanted);
        let seen = watch_text("*a*", &settings);
        assert_eq!(seen.len(), 1);
        assert_eq!((&seen[0].before[..], &seen[0].after[..]), (&given[..], &wanted[..]));
        assert!(!seen[0].edits_before && !seen[0].within_tab && seen[0].read.is_empty());
    }

    fn at(column: usize) -> Start {
        Start { column, within: 0 }
    }

    #[test]
    fn the_readers() {
        let settings = Settings::new(59);
        let whole = |bytes: usize| Taken { bytes, left: 0 };
        assert_eq!(space_or_tab(b"  a", &settings, at(0), 0, 1), Some(whole(1)));
        assert_eq!(space_or_tab(b"  a", &settings, at(0), 3, 9), None);
        let item = Item { taken: whole(11), size: 11, blank: false, mark: b'.' };
        assert_eq!(list_item(b"123456789. a", &settings, at(0), false), Some(item));
        assert_eq!(list_item(b"- - -", &settings, at(0), false), None);
        assert_eq!(list_item(b"-", &settings, at(0), false), Some(Item { taken: whole(1), size: 2, blank: true, mark: b'-' }));
        assert_eq!(list_item(b"-", &settings, at(0), true), None);
        assert_eq!(continuation(b"  a", &settings, at(0), 2, true), Going { taken: Some(whole(2)), blank: false });
        assert_eq!(continuation(b"", &settings, at(0), 2, true), Going { taken: None, blank: true });
        assert_eq!(heading(b"#######", &settings, at(0)), None);
        assert_eq!(heading(b"#", &settings, at(0)).map(|events| events.len()), Some(4));
    }

    #[test]
    fn the_readers_at_columns() {
        let settings = Settings::new(59);
        let taken = |bytes: usize, left: usize| Taken { bytes, left };
        assert_eq!(space_or_tab(b"\t", &settings, at(0), 0, 1), Some(taken(0, 3)));
        assert_eq!(space_or_tab(b" \t", &settings, at(0), 0, 1), Some(taken(1, 0)));
        assert_eq!(space_or_tab(b"\t", &settings, at(3), 2, 9), None);
        // The last column of a tab that began at a stop, and nothing of it.
        let within = Start { column: 7, within: 3 };
        assert_eq!(space_or_tab(b"\ta", &settings, within, 1, 9), Some(taken(1, 0)));
        assert_eq!(space_or_tab(b"\ta", &settings, within, 0, 0), Some(taken(0, 0)));
        let item = |bytes: usize, left: usize, size: usize| Some(Item { taken: taken(bytes, left), size, blank: false, mark: b'-' });
        assert_eq!(list_item(b"-\t\ta", &settings, at(0), false), item(1, 2, 2));
        assert_eq!(list_item(b"-\ta", &settings, at(2), false), item(2, 0, 2));
        assert_eq!(list_item(b"\t- a", &settings, at(0), false), None);
        // The crate's size counts a whole tab as one, and the rest of a tab as if it had begun at a stop.
        assert_eq!(list_item(b"-\ta", &settings, at(0), false), item(2, 0, 2));
        assert_eq!(list_item(b"\t- a", &settings, at(2), false), item(3, 0, 3));
        assert_eq!(list_item(b"\t- a", &settings, Start { column: 2, within: 2 }, false), item(3, 0, 4));
        assert_eq!(list_item(b"\t- a", &settings, Start { column: 2, within: 1 }, false), item(3, 0, 5));
        assert_eq!(continuation(b"\t", &settings, at(0), 2, false), Going { taken: Some(taken(0, 2)), blank: false });
        assert_eq!(heading(b"\t#", &settings, at(0)), None);
        assert_eq!(heading(b"\t#", &settings, at(1)).map(|events| events.len()), Some(6));
    }

    #[test]
    fn texts_are_rendered() {
        for (text, html) in [("a *b*", "a <em>b</em>"), ("# \\#", "# #"), ("*a*", "<em>a</em>"), ("- a", "- a"), ("<b>", "<b>"), ("&lt;", "&lt;")] {
            assert_eq!(inline_html(text).as_deref(), Some(html));
        }
    }

    #[test]
    fn documents_are_watched() {
        let seen = watch_document("- # *a*\n- b\n", &Settings::new(59));
        let kinds: Vec<Resolver> = seen.iter().map(|one| one.which).collect();
        assert_eq!(kinds, [Resolver::Lists, Resolver::Headings, Resolver::Attention]);
    }

    /// In a quote the crate has taken one column of the tab; the item starts with the two that are left.
    #[test]
    fn readings_are_watched() {
        let seen = watch_document(">\t-\t\t# a\n", &Settings::new(59));
        let lists = seen.iter().find(|one| one.which == Resolver::Lists).unwrap();
        let start = Start { column: 2, within: 1 };
        assert_eq!(lists.read, [Read::Item { place: 1, start, taken: Taken { bytes: 2, left: 2 }, mark: b'-' }]);
        let seen = watch_document(">\t# a\n", &Settings::new(59));
        let headings = seen.iter().find(|one| one.which == Resolver::Headings).unwrap();
        assert_eq!(headings.read.len(), 1);
        assert!(matches!(&headings.read[0], Read::Heading { place: 1, start, events } if start.within == 1 && events.len() == 10));
    }

    /// Whether the last line of a document is in its item, which tells of the item's size: after a tab the crate asks for other columns than it has.
    #[test]
    fn sizes_show_in_documents() {
        let in_item = |document: &str| {
            let seen = watch_document(document, &Settings::new(59));
            let events = &seen.iter().find(|one| one.which == Resolver::Lists).unwrap().before;
            events.iter().any(|one| one.exit && one.name == 15 && one.place as usize == document.len())
        };
        // Size 4, and two columns are too few. To the crate the size is 2.
        assert!(in_item("-\ta\n\n  b"));
        assert!(!in_item("-   a\n\n  b"));
        // Size 4, and behind the quote's mark and its space there are four columns. To the crate the size is 5.
        assert!(!in_item(">\t- a\n>\n>     b"));
        assert!(in_item(">   - a\n>\n>     b"));
    }
}
