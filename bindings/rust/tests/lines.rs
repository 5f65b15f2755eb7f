//! The line readers: what is taken, and the findings. What is expected was written from document 01 by hand.

mod common;

use common::{is_dirty, section, Lent};
use ledgerlark::{continuation, heading, list_item, space_or_tab, Container, Continuation, ListKind, Options, Refusal};

/// Document 01's options for its cases.
const OPTIONS: Options = Options::from_bits(59);
const WITHOUT_CODE: Options = Options::from_bits(59 - 32);

/// What is taken, and what is left of a cut tab, at a column.
fn spaces_at(column: usize, line: &[u8], min: usize, max: usize) -> Result<Option<(usize, usize)>, Refusal> {
    Ok(space_or_tab(line, OPTIONS, column, min, max)?.map(|spaces| (spaces.taken, spaces.left)))
}

#[test]
fn spaces_and_tabs() {
    let some = |taken, left| Ok(Some((taken, left)));
    assert_eq!(spaces_at(0, b"    a", 1, 2), some(2, 0));
    assert_eq!(spaces_at(0, b"\t \ta", 2, 9), some(3, 0));
    assert_eq!(spaces_at(0, b"a", 0, 3), some(0, 0));
    assert_eq!(spaces_at(0, b"", 0, 3), some(0, 0));
    assert_eq!(spaces_at(0, b"  \n  ", 0, usize::MAX), some(2, 0));
    assert_eq!(spaces_at(0, b"       a", 5, 5), some(5, 0));
    assert_eq!(spaces_at(0, &[b' '; 300], 0, usize::MAX), some(300, 0));
    // numbers whose lower bits are 0
    assert_eq!(spaces_at(0, b"  a", 0, 1 << 16), some(2, 0));
    assert_eq!(spaces_at(0, b"  a", 0, 1 << 32), some(2, 0));
}

/// A tab goes to the next stop, and is cut where not all of it may be taken.
#[test]
fn tabs_in_columns() {
    let some = |taken, left| Ok(Some((taken, left)));
    assert_eq!(spaces_at(0, b"\t", 0, 1), some(0, 3));
    assert_eq!(spaces_at(0, b" \t", 0, 1), some(1, 0));
    assert_eq!(spaces_at(0, b"\t", 0, 0), some(0, 0));
    assert_eq!(spaces_at(0, b"\t", 2, 2), some(0, 2));
    assert_eq!(spaces_at(0, b"\t\ta", 0, 7), some(1, 1));
    assert_eq!(spaces_at(0, &[b'\t'; 300], 1_200, usize::MAX), some(300, 0));
    // at columns 1 to 4, and at the greatest one
    for (column, wide) in [(1, 3), (2, 2), (3, 1), (4, 4), (16_384, 4)] {
        assert_eq!(spaces_at(column, b"\ta", wide, 9), some(1, 0));
        assert_eq!(spaces_at(column, b"\ta", wide, wide), some(1, 0));
        assert_eq!(spaces_at(column, b"\ta", wide + 1, 9), Ok(None));
        for max in 1..wide {
            assert_eq!(spaces_at(column, b"\ta", 0, max), some(0, wide - max));
        }
    }
}

#[test]
fn too_few() {
    assert_eq!(spaces_at(0, b"  a", 3, 9), Ok(None));
    assert_eq!(spaces_at(0, b"   a", 2, 1), Ok(None));
    assert_eq!(spaces_at(0, b" \n ", 2, 9), Ok(None));
    assert_eq!(spaces_at(0, b"\ta", 5, 9), Ok(None));
    assert_eq!(spaces_at(0, b"\ta", 2, 1), Ok(None));
    assert_eq!(spaces_at(0, b"", usize::MAX, usize::MAX), Ok(None));
    assert_eq!(spaces_at(0, b"  a", 1 << 16, usize::MAX), Ok(None));
    assert_eq!(spaces_at(0, b"  a", 1 << 32, usize::MAX), Ok(None));
}

/// An item as the tests write it down: what is taken, what is left of a cut tab, and the container.
type Item = Result<Option<(usize, usize, Container)>, Refusal>;

fn item_at(column: usize, line: &[u8], options: Options, interrupting: bool) -> Item {
    Ok(list_item(line, options, column, interrupting)?.map(|item| (item.taken, item.left, item.container)))
}

fn item_on(line: &[u8], options: Options, interrupting: bool) -> Item {
    item_at(0, line, options, interrupting)
}

/// An item with a filled rest, of which no tab is cut.
fn item(taken: usize, size: usize, kind: ListKind) -> Item {
    cut_item(taken, 0, size, kind)
}

/// An item with a filled rest, and what is left of a tab there.
fn cut_item(taken: usize, left: usize, size: usize, kind: ListKind) -> Item {
    Ok(Some((taken, left, Container::new(kind, size, false))))
}

/// An item with a blank rest.
fn blank_item(taken: usize, size: usize, kind: ListKind) -> Item {
    Ok(Some((taken, 0, Container::new(kind, size, true))))
}

#[test]
fn items() {
    let (dash, dot) = (ListKind::Bullet(b'-'), ListKind::Ordered(b'.'));
    assert_eq!(item_on(b"123456789. a", OPTIONS, false), item(11, 11, dot));
    assert_eq!(item_on(b"-    a", OPTIONS, false), item(5, 5, dash));
    assert_eq!(item_on(b"-     a", OPTIONS, false), item(2, 2, dash));
    assert_eq!(item_on(b"   * a\nb", OPTIONS, false), item(5, 5, ListKind::Bullet(b'*')));
    assert_eq!(item_on(b"+ + +", OPTIONS, true), item(2, 2, ListKind::Bullet(b'+')));
    assert_eq!(item_on(b"1) a", OPTIONS, true), item(3, 3, ListKind::Ordered(b')')));
    assert_eq!(item_on(b"2. a", OPTIONS, false), item(3, 3, dot));
    assert_eq!(item_on(b"100. a", OPTIONS, false), item(5, 5, dot));
    assert_eq!(item_on(b"12. a", OPTIONS, false), item(4, 4, dot));
    assert_eq!(item_on(b"\t- a", WITHOUT_CODE, false), item(3, 6, dash));
    assert_eq!(item_on(b"    - a", WITHOUT_CODE, false), item(6, 6, dash));
    // no thematic breaks
    assert_eq!(item_on(b"- - - a", OPTIONS, false), item(2, 2, dash));
    assert_eq!(item_on(b"- * -", OPTIONS, false), item(2, 2, dash));
    assert_eq!(item_on(b"-", OPTIONS, false), blank_item(1, 2, dash));
    assert_eq!(item_on(b"  1.   \na", OPTIONS, false), blank_item(4, 5, dot));
    assert_eq!(item_on(b"1)", OPTIONS, false), blank_item(2, 3, ListKind::Ordered(b')')));
}

#[test]
fn items_with_tabs() {
    let (dash, dot) = (ListKind::Bullet(b'-'), ListKind::Ordered(b'.'));
    assert_eq!(item_on(b"-\ta", OPTIONS, false), item(2, 4, dash));
    assert_eq!(item_on(b"1.\ta", OPTIONS, true), item(3, 4, dot));
    assert_eq!(item_on(b"-\t\ta", OPTIONS, false), cut_item(1, 2, 2, dash));
    assert_eq!(item_on(b"1.\t\ta", OPTIONS, false), cut_item(2, 1, 3, dot));
    assert_eq!(item_on(b"-\t", OPTIONS, false), blank_item(1, 2, dash));
    // at other columns; a size is counted from there
    assert_eq!(item_at(2, b"-\ta", OPTIONS, false), item(2, 2, dash));
    assert_eq!(item_at(3, b"-\ta", OPTIONS, false), item(2, 5, dash));
    assert_eq!(item_at(3, b"-\t a", OPTIONS, false), cut_item(1, 3, 2, dash));
    assert_eq!(item_at(5, b"  - a", OPTIONS, false), item(4, 4, dash));
    assert_eq!(item_at(16_384, b"-\ta", OPTIONS, false), item(2, 4, dash));
    // in front of the marker
    assert_eq!(item_at(0, b"\t- a", OPTIONS, false), Ok(None));
    for (column, size) in [(1, 5), (2, 4), (3, 3)] {
        assert_eq!(item_at(column, b"\t- a", OPTIONS, false), item(3, size, dash));
    }
    assert_eq!(item_at(4, b"\t- a", OPTIONS, false), Ok(None));
}

#[test]
fn not_an_item() {
    let lines: [&[u8]; 11] = [
        b"\t- a",
        b"",
        b"a",
        b"-a",
        b"1234567890. a",
        b"1234567890) a",
        b"    - a",
        b"- - -",
        b"  - - -",
        b"- - - -",
        b"\n- a",
    ];
    for line in lines {
        assert_eq!(list_item(line, OPTIONS, 0, false), Ok(None), "{line:?}");
        assert_eq!(list_item(line, OPTIONS, 0, true), Ok(None), "{line:?}");
    }
    let lines: [&[u8]; 5] = [b"2. a", b"12. a", b"01. a", b"-", b"1.  "];
    for line in lines {
        assert_eq!(list_item(line, OPTIONS, 0, true), Ok(None), "{line:?}");
    }
    assert_eq!(list_item(b"- a", Options::from_bits(59 - 16), 0, false), Ok(None));
}

#[test]
fn continuations() {
    let cut = |taken, left, container| Ok((Some((taken, left)), container));
    let goes = |taken, container| cut(taken, 0, container);
    let stops = |container| Ok((None, container));
    let continuation_at = |column, line: &[u8], options, container| {
        let answer = continuation(line, options, column, container)?;
        // The two ways to ask tell the same.
        let taken = answer.taken().zip(answer.left());
        assert_eq!(answer.taken().is_some(), answer.left().is_some());
        match answer {
            Continuation::Goes {
                taken: bytes,
                left,
                container,
                ..
            } => assert_eq!((taken, answer.container()), (Some((bytes, left)), container)),
            Continuation::Stops { container, .. } => assert_eq!((taken, answer.container()), (None, container)),
        }
        Ok::<_, Refusal>((taken, answer.container()))
    };
    let continuation = |line: &[u8], options, container| continuation_at(0, line, options, container);
    for kind in [ListKind::Bullet(b'-'), ListKind::Ordered(b')')] {
        let clear = |size| Container::new(kind, size, false);
        let set = |size| Container::new(kind, size, true);

        // a blank line
        assert_eq!(continuation(b" ", OPTIONS, set(2)), stops(set(2)));
        assert_eq!(continuation(b"", OPTIONS, set(2)), stops(set(2)));
        assert_eq!(continuation(b"   ", OPTIONS, clear(2)), goes(2, clear(2)));
        assert_eq!(continuation(b" \na", OPTIONS, clear(2)), goes(1, clear(2)));
        assert_eq!(continuation(b"", OPTIONS, clear(2)), goes(0, clear(2)));

        // a filled one: the flag is cleared, whatever follows
        assert_eq!(continuation(b"   a", OPTIONS, set(2)), goes(2, clear(2)));
        assert_eq!(continuation(b"   a", OPTIONS, clear(2)), goes(2, clear(2)));
        assert_eq!(continuation(b" a", OPTIONS, set(2)), stops(clear(2)));
        assert_eq!(continuation(b" a", OPTIONS, clear(2)), stops(clear(2)));
        assert_eq!(continuation(b"a", OPTIONS, set(0)), stops(clear(0)));
        assert_eq!(continuation(b" a", OPTIONS, set(0)), goes(0, clear(0)));
        for size in [1 << 16, 1 << 32, usize::MAX] {
            assert_eq!(continuation(b"  a", OPTIONS, set(size)), stops(clear(size)));
        }

        // tabs, cut and whole
        assert_eq!(continuation(b"\t", OPTIONS, clear(2)), cut(0, 2, clear(2)));
        assert_eq!(continuation(b"\ta", OPTIONS, set(2)), cut(0, 2, clear(2)));
        assert_eq!(continuation(b"\ta", OPTIONS, clear(0)), goes(0, clear(0)));
        assert_eq!(continuation(b"\ta", OPTIONS, clear(4)), goes(1, clear(4)));
        assert_eq!(continuation(b"\ta", OPTIONS, clear(5)), stops(clear(5)));
        assert_eq!(continuation_at(2, b"\ta", OPTIONS, clear(2)), goes(1, clear(2)));
        assert_eq!(continuation_at(3, b"\ta", OPTIONS, clear(2)), stops(clear(2)));
        assert_eq!(continuation_at(3, b"\t\ta", OPTIONS, clear(2)), cut(1, 3, clear(2)));
        assert_eq!(continuation_at(3, b"\t\t", OPTIONS, clear(2)), cut(1, 3, clear(2)));

        // a form feed is not blank
        assert_eq!(continuation(b"\x0c", OPTIONS, set(2)), stops(clear(2)));
        assert_eq!(continuation(&[b' '; 400], OPTIONS, clear(400)), goes(400, clear(400)));

        // no option is asked for
        for options in (0..=63).map(Options::from_bits) {
            assert_eq!(continuation(b"  a", options, clear(2)), goes(2, clear(2)));
            assert_eq!(continuation(b" a", options, clear(2)), stops(clear(2)));
        }
    }
}

/// The section, with an output that is just long enough, some that are longer, and one that is a byte short. 65,536 cut to 16 bits is 0.
fn heads(line: &[u8], options: Options, notation: &str) {
    heads_at(0, line, options, notation);
}

fn heads_at(column: usize, line: &[u8], options: Options, notation: &str) {
    let section = section(notation);
    let events = (section.len() - 4) / 8;
    for length in [section.len(), section.len() + 1, 65_536] {
        let mut out = Lent::new(length);
        assert_eq!(heading(line, options, column, out.lend()), Ok(Some(events)), "{line:?}");
        assert_eq!(out.after()[..section.len()], section, "{line:?}");
        assert!(is_dirty(&out.after()[section.len()..]), "{line:?}");
    }
    for length in [0, section.len() - 1] {
        let mut out = Lent::new(length);
        assert_eq!(heading(line, options, column, out.lend()), Err(Refusal::Output));
        assert!(out.is_dirty());
    }
}

#[test]
fn headings() {
    heads(b"# a#", OPTIONS, "+11@0 +12@0 -12@1 +14@1 -14@2 +0@2 -0@4 -11@4");
    heads(
        b" # #a",
        OPTIONS,
        "+11@0 +14@0 -14@1 +12@1 -12@2 +14@2 -14@3 +12@3 -12@4 +0@4 -0@5 -11@5",
    );
    heads(
        b"###### a b ",
        OPTIONS,
        "+11@0 +12@0 -12@6 +14@6 -14@7 +0@7 -0@8 +14@8 -14@9 +0@9 -0@10 +14@10 -14@11 -11@11",
    );
    heads(b"### a", OPTIONS, "+11@0 +12@0 -12@3 +14@3 -14@4 +0@4 -0@5 -11@5");
    heads(b"\t# a", WITHOUT_CODE, "+11@0 +14@0 -14@1 +12@1 -12@2 +14@2 -14@3 +0@3 -0@4 -11@4");
    for column in [1, 2, 3, 5, 16_383] {
        heads_at(
            column,
            b"\t# a",
            OPTIONS,
            "+11@0 +14@0 -14@1 +12@1 -12@2 +14@2 -14@3 +0@3 -0@4 -11@4",
        );
    }
    heads(b"#\na", OPTIONS, "+11@0 +12@0 -12@1 -11@1");
    heads(b"    #", WITHOUT_CODE, "+11@0 +14@0 -14@4 +12@4 -12@5 -11@5");
}

#[test]
fn not_a_heading() {
    let lines: [&[u8]; 7] = [b"", b"a", b"#a", b"#######", b"    # a", b"\t# a", b"\n# a"];
    for line in lines {
        for length in [0, 1_000] {
            for column in [0, 4, 16_384] {
                let mut out = Lent::new(length);
                assert_eq!(heading(line, OPTIONS, column, out.lend()), Ok(None), "{line:?}");
                assert!(out.is_dirty());
            }
        }
    }
    let mut out = Lent::new(1_000);
    assert_eq!(heading(b"# a", Options::from_bits(59 - 8), 0, out.lend()), Ok(None));
    assert!(out.is_dirty());
}

/// The convenience gives the same events, at the limit too, and passes findings and refusals on.
#[cfg(feature = "alloc")]
#[test]
fn to_vec() {
    use ledgerlark::heading_to_vec;

    let events = common::events("+11@0 +12@0 -12@1 +14@1 -14@2 +0@2 -0@3 -11@3");
    assert_eq!(heading_to_vec(b"# a", OPTIONS, 0), Ok(Some(events)));
    assert_eq!(heading_to_vec(b"#a", OPTIONS, 0), Ok(None));
    assert_eq!(heading_to_vec(b"\t#", OPTIONS, 0), Ok(None));
    assert_eq!(
        heading_to_vec(b"\t#", OPTIONS, 1),
        Ok(Some(common::events("+11@0 +14@0 -14@1 +12@1 -12@2 -11@2")))
    );
    assert_eq!(heading_to_vec(b"#", OPTIONS, 16_385), Err(Refusal::Options));
    assert_eq!(heading_to_vec(b"# a\r", OPTIONS, 0), Err(Refusal::Return { place: 3 }));
    // 1,999 times two pairs, the `#` and the heading; then one pair more.
    let longest = ["#".to_string(), " a".repeat(1_999)].concat();
    assert_eq!(
        heading_to_vec(longest.as_bytes(), OPTIONS, 0).map(|found| found.map(|events| events.len())),
        Ok(Some(8_000))
    );
    assert_eq!(heading_to_vec((longest + " ").as_bytes(), OPTIONS, 0), Err(Refusal::Result));
}
