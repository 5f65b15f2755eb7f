//! The resolvers of headings and lists. What is expected was written from document 01 by hand.

mod common;

use common::{resolves, Expected, Resolver, HEADINGS2, LISTS2, OLD, SECOND};
use ledgerlark::{resolve_headings, resolve_lists, Options};

/// A resolver in the old form and in form 2.
type Both = [Resolver; 2];
const HEADINGS: Both = [resolve_headings, HEADINGS2];
const LISTS: Both = [resolve_lists, LISTS2];

/// In either form, with all options and with none: these two resolvers ask for none.
fn case([old, second]: Both, document: &str, before: &str, after: &str) {
    for options in [Options::default(), Options::NONE] {
        let expected = Expected {
            events: after,
            groups: 0,
            tried: 0,
        };
        resolves(&OLD, old, options, document, before, expected);
        resolves(&SECOND, second, options, document, before, expected);
    }
}

#[test]
fn text_goes_round_words_and_hashes() {
    case(
        HEADINGS,
        "# a#",
        "+11@0 +12@0 -12@1 +14@1 -14@2 +0@2 -0@4 -11@4",
        "+11@0 +12@0 -12@1 +14@1 -14@2 +13@2 +0@2 -0@4 -13@4 -11@4",
    );
    case(
        HEADINGS,
        "# #a",
        "+11@0 +12@0 -12@1 +14@1 -14@2 +12@2 -12@3 +0@3 -0@4 -11@4",
        "+11@0 +12@0 -12@1 +14@1 -14@2 +13@2 +0@2 -0@4 -13@4 -11@4",
    );
    case(
        HEADINGS,
        "# ## #",
        "+11@0 +12@0 -12@1 +14@1 -14@2 +12@2 -12@4 +14@4 -14@5 +12@5 -12@6 -11@6",
        "+11@0 +12@0 -12@1 +14@1 -14@2 +13@2 +0@2 -0@4 -13@4 +14@4 -14@5 +12@5 -12@6 -11@6",
    );
}

#[test]
fn only_the_closing_run_stays_out() {
    case(
        HEADINGS,
        "# a # #",
        "+11@0 +12@0 -12@1 +14@1 -14@2 +0@2 -0@3 +14@3 -14@4 +12@4 -12@5 +14@5 -14@6 +12@6 -12@7 -11@7",
        "+11@0 +12@0 -12@1 +14@1 -14@2 +13@2 +0@2 -0@5 -13@5 +14@5 -14@6 +12@6 -12@7 -11@7",
    );
}

#[test]
fn what_lies_in_the_text_goes() {
    case(
        HEADINGS,
        "# a b #",
        "+11@0 +12@0 -12@1 +14@1 -14@2 +0@2 -0@3 +14@3 -14@4 +0@4 -0@5 +14@5 -14@6 +12@6 -12@7 -11@7",
        "+11@0 +12@0 -12@1 +14@1 -14@2 +13@2 +0@2 -0@5 -13@5 +14@5 -14@6 +12@6 -12@7 -11@7",
    );
}

#[test]
fn heading_without_text_is_unchanged() {
    case(
        HEADINGS,
        " # #",
        "+11@0 +14@0 -14@1 +12@1 -12@2 +14@2 -14@3 +12@3 -12@4 -11@4",
        "+11@0 +14@0 -14@1 +12@1 -12@2 +14@2 -14@3 +12@3 -12@4 -11@4",
    );
    case(HEADINGS, "a", "+0@0 -0@1", "+0@0 -0@1");
    case(HEADINGS, "", "", "");
}

#[test]
fn items_of_one_mark_join() {
    case(
        LISTS,
        "- a\n- b",
        "+15@0 +16@0 +17@0 -17@1 +14@1 -14@2 -16@2 +0@2 -0@3 -15@3 +21@3 -21@4 \
         +15@4 +16@4 +17@4 -17@5 +14@5 -14@6 -16@6 +0@6 -0@7 -15@7",
        "+20@0 +15@0 +16@0 +17@0 -17@1 +14@1 -14@2 -16@2 +0@2 -0@3 -15@3 +21@3 -21@4 \
         +15@4 +16@4 +17@4 -17@5 +14@5 -14@6 -16@6 +0@6 -0@7 -15@7 -20@7",
    );
    case(
        LISTS,
        "1. a\n7. b",
        "+15@0 +16@0 +18@0 -18@1 +17@1 -17@2 +14@2 -14@3 -16@3 +0@3 -0@4 -15@4 +21@4 -21@5 \
         +15@5 +16@5 +18@5 -18@6 +17@6 -17@7 +14@7 -14@8 -16@8 +0@8 -0@9 -15@9",
        "+19@0 +15@0 +16@0 +18@0 -18@1 +17@1 -17@2 +14@2 -14@3 -16@3 +0@3 -0@4 -15@4 +21@4 -21@5 \
         +15@5 +16@5 +18@5 -18@6 +17@6 -17@7 +14@7 -14@8 -16@8 +0@8 -0@9 -15@9 -19@9",
    );
}

#[test]
fn items_of_two_marks_do_not() {
    case(
        LISTS,
        "*\n-",
        "+15@0 +16@0 +17@0 -17@1 -16@1 -15@1 +21@1 -21@2 +15@2 +16@2 +17@2 -17@3 -16@3 -15@3",
        "+20@0 +15@0 +16@0 +17@0 -17@1 -16@1 -15@1 -20@1 +21@1 -21@2 +20@2 +15@2 +16@2 +17@2 -17@3 -16@3 -15@3 -20@3",
    );
}

#[test]
fn a_container_keeps_items_apart() {
    case(
        LISTS,
        "--",
        "+15@0 +16@0 +17@0 -17@1 -16@1 -15@1 +24@1 -24@1 +15@1 +16@1 +17@1 -17@2 -16@2 -15@2",
        "+20@0 +15@0 +16@0 +17@0 -17@1 -16@1 -15@1 -20@1 +24@1 -24@1 +20@1 +15@1 +16@1 +17@1 -17@2 -16@2 -15@2 -20@2",
    );
    case(LISTS, "a", "+0@0 -0@1", "+0@0 -0@1");
    case(LISTS, "", "", "");
}

#[cfg(feature = "alloc")]
#[test]
fn to_vec() {
    use common::{events, record};
    use ledgerlark::{resolve_headings_to_vec, resolve_lists_to_vec, Refusal, Work};

    let mut work = Work::new();
    let heading = record(b"# a", "+11@0 +12@0 -12@1 +14@1 -14@2 +0@2 -0@3 -11@3");
    assert_eq!(
        resolve_headings_to_vec(&heading, Options::default(), &mut work),
        Ok(events("+11@0 +12@0 -12@1 +14@1 -14@2 +13@2 +0@2 -0@3 -13@3 -11@3"))
    );
    let item = record(b"-", "+15@0 +16@0 +17@0 -17@1 -16@1 -15@1");
    assert_eq!(
        resolve_lists_to_vec(&item, Options::default(), &mut work),
        Ok(events("+20@0 +15@0 +16@0 +17@0 -17@1 -16@1 -15@1 -20@1"))
    );
    let shapes = record(b"", "+11@0 -11@0 +15@0 -15@0");
    let refused = |place| Err(Refusal::Shape { place });
    assert_eq!(resolve_headings_to_vec(&shapes, Options::default(), &mut work), refused(8));
    assert_eq!(resolve_lists_to_vec(&shapes, Options::default(), &mut work), refused(24));
}
