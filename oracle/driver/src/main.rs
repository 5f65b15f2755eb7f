//! Holds the static library against the crate markdown 1.0.0, both against document 01 in plain Rust, and the library against the standard: the
//! content of its headings' lines, and the examples of headings, tabs, list items and other blocks. Every record is put to the calls of form 2 too.
//!
//! `oracle/run` builds and runs it. Arguments: `--markdown DIR` (as often as wanted) adds Markdown files and the standard's examples, `--scale N`
//! divides the counts by N for a short run, `--differences FILE` names the list of known ones, `--store FILE` writes the stored list of the crate's
//! answers and does nothing else. Status 1 if anything differs that is not listed.

mod answer;
mod blocks;
mod categories;
mod chance;
mod characters;
mod compare;
mod content;
mod damage;
mod departures;
mod documents;
mod domain;
mod forms;
mod library;
mod lines;
mod paper;
mod records;
mod standard;
mod store;
mod tally;

use std::io::{IsTerminal, Write};
use std::sync::atomic::{AtomicBool, AtomicUsize, Ordering};
use std::sync::Mutex;
use std::time::{Duration, Instant};

use answer::{Call, Question};
use chance::Chance;
use compare::{Bench, Markdown, BACK, BEGUN, BEHIND, CROSSED, FALLING, PANIC, UNPAIRED, WHOLE};
use documents::Found;
use forms::Form;
use lines::Strings;
use tally::{Source, Tally};

const THREADS: usize = 2;
const READERS: [Call; 4] = [Call::SpaceOrTab, Call::ListItem, Call::Continuation, Call::Heading];
/// Starting columns: all there are between two stops, the stop itself, and the last ones up to the limit.
const COLUMNS: [usize; 9] = [0, 1, 2, 3, 4, 16_381, 16_382, 16_383, 16_384];

/// Kinds of difference that are known, by the number of their row in docs/DIFFERENCES.md.
const LISTED: [(&str, &str); 7] =
    [("D12", BEHIND), ("D12", CROSSED), ("D13", FALLING), ("D14", WHOLE), ("D14", BEGUN), ("D15", BACK), ("D16", UNPAIRED)];

struct Run {
    tally: Tally,
    start: Instant,
    scale: usize,
}

impl Run {
    /// Do `count` pieces of work, each known by its number alone, on two threads.
    fn stage(&mut self, name: &str, count: usize, work: impl Fn(&mut Bench, usize) + Sync) {
        let next = AtomicUsize::new(0);
        let done = AtomicBool::new(false);
        let tallies = Mutex::new(vec![]);
        let terminal = std::io::stderr().is_terminal();
        std::thread::scope(|scope| {
            let workers: Vec<_> = (0..THREADS)
                .map(|_| {
                    scope.spawn(|| {
                        let mut bench = Bench::new();
                        loop {
                            let from = next.fetch_add(256, Ordering::Relaxed);
                            if from >= count {
                                break;
                            }
                            (from..count.min(from + 256)).for_each(|i| work(&mut bench, i));
                        }
                        tallies.lock().unwrap().push(bench.tally);
                    })
                })
                .collect();
            scope.spawn(|| {
                // On a terminal the line is written over; elsewhere one now and then is enough.
                let mut shown = Instant::now();
                while !done.load(Ordering::Relaxed) {
                    if terminal || shown.elapsed() > Duration::from_secs(30) {
                        shown = Instant::now();
                        let progress =
                            format!("{name}: {} of {count}, {:.0} s", next.load(Ordering::Relaxed).min(count), self.start.elapsed().as_secs_f64());
                        eprint!("{}", if terminal { format!("\r{progress:80}") } else { format!("{progress}\n") });
                        let _shown = std::io::stderr().flush();
                    }
                    std::thread::sleep(Duration::from_millis(50));
                }
            });
            for worker in workers {
                if worker.join().is_err() {
                    eprintln!("\na worker of the driver itself panicked in: {name}");
                    std::process::exit(2);
                }
            }
            done.store(true, Ordering::Relaxed);
        });
        if terminal {
            eprint!("\r{:80}\r", "");
        }
        let before = Form::ALL.map(|form| self.tally.total(form));
        tallies.into_inner().unwrap().into_iter().for_each(|tally| self.tally.add(tally));
        let kinds = self.tally.differences.len();
        let [old, second] = [0, 1].map(|i| self.tally.total(Form::ALL[i]) - before[i]);
        let beside = if second > 0 { format!(" and {second} in form 2") } else { String::new() };
        println!("{name}: {old} compared{beside}, {:.0} s; kinds of difference so far: {kinds}", self.start.elapsed().as_secs_f64());
    }

    /// A count for this run.
    fn some(&self, count: usize) -> usize {
        (count / self.scale).max(1)
    }

    /// All of a set of strings, or every so many of them in a short run.
    fn strings(&mut self, name: &str, strings: &Strings, work: impl Fn(&mut Bench, Vec<u8>) + Sync) {
        let scale = self.scale;
        self.stage(name, strings.count / scale, |bench, i| work(bench, strings.get(i * scale)));
    }
}

fn exhaustive(run: &mut Run) {
    for (name, alphabet, longest) in [("texts of `*_ a.` to 7", &b"*_ a."[..], 7), ("texts of `*_~ a.` to 6", b"*_~ a.", 6)] {
        run.strings(name, &Strings::new(alphabet, longest), |bench, text| {
            (0..8).for_each(|options| bench.ask(&records::split(&text, options), Source::Exhaustive));
        });
    }
    run.strings("texts with links, code and HTML to 6", &Strings::of(&["*", "_", "a", " ", "[", "](b)", "`", "<b>"], 6), |bench, text| {
        bench.watch(Markdown { bytes: &text, text_alone: true, more: false }, 59, Source::Exhaustive);
    });
    let put = |bench: &mut Bench, call: Call, line: &[u8], options: u32, arguments: [usize; 3]| {
        bench.ask(&Question { arguments, ..Question::new(call, line.to_vec(), options) }, Source::Exhaustive);
    };
    run.strings("lines for space-or-tab", &Strings::new(b" a\n", 6), |bench, line| {
        for (min, max) in (0..8).flat_map(|min| (0..8).map(move |max| (min, max))) {
            put(bench, Call::SpaceOrTab, &line, 59, [min, max, 0]);
        }
    });
    run.strings("lines for list items", &Strings::new(b" -*+10.)a\n", 6), |bench, line| {
        for (options, interrupting) in [(59, 0), (59, 1), (27, 0), (27, 1)] {
            put(bench, Call::ListItem, &line, options, [interrupting, 0, 0]);
        }
    });
    run.strings("lines for list items, more marks", &Strings::new(b" -*\ta", 8), |bench, line| {
        put(bench, Call::ListItem, &line, 59, [0, 0, 0]);
    });
    run.strings("lines for continuation", &Strings::new(b" a-\n\t", 6), |bench, line| {
        for (size, blank) in (0..8).flat_map(|size| (0..2).map(move |blank| (size, blank))) {
            put(bench, Call::Continuation, &line, 59, [size, blank, b'-' as usize]);
        }
    });
    run.strings("lines for headings", &Strings::new(b"# a\t\n.", 6), |bench, line| {
        for options in [59, 27, 51] {
            put(bench, Call::Heading, &line, options, [0; 3]);
        }
    });
    for (name, alphabet) in [("headings of `# a.` to 9, read and resolved", b"# a."), ("headings of `# \\ta` to 9, read and resolved", b"# \ta")] {
        run.strings(name, &Strings::new(alphabet, 9), |bench, line| bench.read_and_resolve(line, 59, Source::Exhaustive));
    }
    columns(run);
    beyond_ascii(run);
    let some: [(&str, &'static [u8], u32); 4] = [
        ("documents of `-1. a\\n>` to 7", b"-1. a\n>", 7),
        ("documents of `*-# \\n` to 8", b"*-# \n", 8),
        ("documents of `-\\t a\\n>` to 7", b"-\t a\n>", 7),
        ("documents of `1.\\t#\\n>` to 7", b"1.\t#\n>", 7),
    ];
    for (name, alphabet, longest) in some {
        run.strings(name, &Strings::new(alphabet, longest), |bench, document| {
            bench.watch(Markdown { bytes: &document, text_alone: false, more: false }, 59, Source::Exhaustive);
        });
    }
}

/// Every character beside runs, and small alphabets with characters of two, three and four bytes.
fn beyond_ascii(run: &mut Run) {
    // With room enough: none of these may be refused.
    fn put<T: AsRef<[u8]>>(bench: &mut Bench, characters: &[T]) {
        for marker in *b"*_" {
            bench.ask_lengths(&characters::beside(marker, characters), Source::Exhaustive, library::OUTPUT, library::WORK);
        }
    }
    // A short run has these whole: they are few, and a wrong end of a range is seen by no other character.
    let edges = characters::edges();
    run.stage("characters at the ends of ranges, beside runs", edges.len(), |bench, i| put(bench, &edges[i]));
    let (all, scale) = (characters::all(), run.scale);
    run.stage("all characters beside runs", all.len() / scale, |bench, i| put(bench, &all[i * scale]));
    let sequences = characters::sequences(4);
    let parts = sequences.count.div_ceil(characters::TOGETHER);
    run.stage("sequences of up to 4 bytes beside runs, most of them malformed", parts / scale, |bench, i| {
        let from = characters::TOGETHER * i * scale;
        let some: Vec<Vec<u8>> = (from..sequences.count.min(from + characters::TOGETHER)).map(|n| sequences.get(n)).collect();
        put(bench, &some);
    });
    run.strings("sequences of up to 3 bytes at the edges of a text", &characters::sequences(3), |bench, sequence| {
        for text in [[&sequence[..], b"_b_ "].concat(), [b" _b_", &sequence[..]].concat()] {
            bench.ask(&records::split(&text, 1), Source::Exhaustive);
        }
    });
    let some: [(&str, &[&str], u32); 3] = [
        ("texts of `*_a «é` and a no-break space to 6", &["*", "_", "a", " ", "«", "\u{a0}", "é"], 6),
        ("texts of `*a «` and a no-break space to 7", &["*", "a", " ", "«", "\u{a0}"], 7),
        ("texts of `*~あ「😀𝐀` and an ideographic space to 5", &["*", "~", "あ", "「", "\u{3000}", "😀", "𝐀"], 5),
    ];
    for (name, pieces, longest) in some {
        run.strings(name, &Strings::of(pieces, longest), |bench, text| bench.ask(&records::split(&text, 7), Source::Exhaustive));
    }
    let pieces = [" ", "\t", "-", "1", ".", "#", "\u{b}", "\u{a0}", "é", "\u{2028}"];
    run.strings("lines with other spaces and é to 4", &Strings::of(&pieces, 4), |bench, line| {
        let mut ask = |call: Call, arguments: [usize; 3]| {
            bench.ask(&Question { arguments, ..Question::new(call, line.clone(), 59) }, Source::Exhaustive);
        };
        ask(Call::SpaceOrTab, [0, 9, 0]);
        ask(Call::ListItem, [0; 3]);
        ask(Call::ListItem, [1, 0, 0]);
        ask(Call::Continuation, [2, 0, b'-' as usize]);
        ask(Call::Continuation, [0, 1, b'-' as usize]);
        ask(Call::Heading, [0; 3]);
    });
    let pieces = ["*", "- ", "# ", "\n", "a", "\u{a0}", "«", "\u{b}"];
    run.strings("documents with other spaces and « to 5", &Strings::of(&pieces, 5), |bench, document| {
        bench.watch(Markdown { bytes: &document, text_alone: false, more: false }, 59, Source::Exhaustive);
    });
}

/// Lines with tabs anywhere, and starting columns.
fn columns(run: &mut Run) {
    const LETTERS: &[u8] = b" \t-1.a#";
    let put = |bench: &mut Bench, call: Call, line: &[u8], options: u32, column: usize, arguments: [usize; 3]| {
        bench.ask(&Question { column, arguments, ..Question::new(call, line.to_vec(), options) }, Source::Exhaustive);
    };
    run.strings("lines of ` \\ta` to 5 at columns, for space-or-tab", &Strings::new(b" \ta", 5), |bench, line| {
        for column in COLUMNS {
            for (min, max) in (0..10).flat_map(|min| (0..10).map(move |max| (min, max))) {
                put(bench, Call::SpaceOrTab, &line, 59, column, [min, max, 0]);
            }
        }
    });
    run.strings("lines of ` \\t-1.a#` to 5 at columns, for list items", &Strings::new(LETTERS, 5), |bench, line| {
        for column in COLUMNS {
            for (options, interrupting) in [(59, 0), (59, 1), (27, 0), (27, 1)] {
                put(bench, Call::ListItem, &line, options, column, [interrupting, 0, 0]);
            }
        }
    });
    run.strings("lines of ` \\t-a` to 7 at columns, for list items", &Strings::new(b" \t-a", 7), |bench, line| {
        for (column, options) in (0..4).flat_map(|column| [59, 27].map(|options| (column, options))) {
            put(bench, Call::ListItem, &line, options, column, [0; 3]);
        }
    });
    run.strings("lines of ` \\t-1.a#` to 4 at columns, for continuation", &Strings::new(LETTERS, 4), |bench, line| {
        for (column, size, blank) in COLUMNS.into_iter().flat_map(|column| (0..10).flat_map(move |size| [0, 1].map(|blank| (column, size, blank)))) {
            put(bench, Call::Continuation, &line, 59, column, [size, blank, b'-' as usize]);
        }
    });
    run.strings("lines of ` \\ta` to 6 at columns, for continuation", &Strings::new(b" \ta", 6), |bench, line| {
        for (column, size, blank) in (0..5).flat_map(|column| (0..14).flat_map(move |size| [0, 1].map(|blank| (column, size, blank)))) {
            put(bench, Call::Continuation, &line, 59, column, [size, blank, b'.' as usize]);
        }
    });
    run.strings("lines of ` \\t-1.a#` to 5 at columns, for headings", &Strings::new(LETTERS, 5), |bench, line| {
        for (column, options) in COLUMNS.into_iter().flat_map(|column| [59, 27].map(|options| (column, options))) {
            put(bench, Call::Heading, &line, options, column, [0; 3]);
        }
    });
    run.strings("lines of ` \\t#a` to 7 at columns, for headings", &Strings::new(b" \t#a", 7), |bench, line| {
        (0..4).for_each(|column| put(bench, Call::Heading, &line, 59, column, [0; 3]));
    });
}

fn random(run: &mut Run) {
    let many = run.some(600_000);
    run.stage("random records for attention", many, |bench, i| {
        bench.ask(&records::attention(&mut Chance::new(i as u64)), Source::Random);
    });
    let many = run.some(3_000);
    run.stage("records for attention at the limits", many, |bench, i| {
        bench.ask(&records::attention_at_limits(&mut Chance::new(1_000_000_000 + i as u64)), Source::Random);
    });
    let many = run.some(400_000);
    run.stage("random texts", many, |bench, i| {
        let chance = &mut Chance::new(2_000_000_000 + i as u64);
        let length = match chance.below(500) {
            0 => 1_500 + chance.below(500),
            1..=20 => chance.below(200),
            _ => chance.below(24),
        };
        let text = records::text(chance, length);
        let options = chance.below(8) as u32;
        bench.ask(&records::split(&text, options), Source::Random);
        bench.watch(Markdown { bytes: &text, text_alone: true, more: false }, options | 56, Source::Random);
    });
    let many = run.some(1_000_000);
    run.stage("random records for headings", many, |bench, i| {
        bench.ask(&records::headings(&mut Chance::new(3_000_000_000 + i as u64)), Source::Random);
    });
    run.stage("random records for lists", many, |bench, i| {
        let chance = &mut Chance::new(4_000_000_000 + i as u64);
        let question = if chance.once_in(500) { records::lists_at_limits(chance) } else { records::lists(chance) };
        bench.ask(&question, Source::Random);
    });
    let many = run.some(400_000);
    run.stage("random headings, read and resolved", many, |bench, i| {
        bench.read_and_resolve(lines::heading(&mut Chance::new(9_000_000_000 + i as u64)), 59, Source::Random);
    });
    let many = run.some(1_200_000);
    for call in READERS {
        run.stage(&format!("random lines for {}", call.name()), many, |bench, i| {
            let chance = &mut Chance::new(5_000_000_000 + 8 * i as u64 + call as u64);
            let question = lines::line(call, chance);
            let column = if chance.once_in(3) { lines::column(chance) } else { 0 };
            bench.ask(&Question { column, ..question }, Source::Random);
        });
    }
    let many = run.some(400_000);
    for call in READERS {
        run.stage(&format!("random lines with tabs for {}", call.name()), many, |bench, i| {
            bench.ask(&lines::tabbed(call, &mut Chance::new(10_000_000_000 + 8 * i as u64 + call as u64)), Source::Random);
        });
    }
}

/// The same with characters of one to four bytes.
fn random_beyond_ascii(run: &mut Run) {
    let many = run.some(200_000);
    run.stage("random records for attention, with characters of all lengths", many, |bench, i| {
        let chance = &mut Chance::new(12_000_000_000 + i as u64);
        let question = records::attention(chance);
        bench.ask(&records::widened(&question, chance), Source::Random);
    });
    let many = run.some(100_000);
    run.stage("random texts of characters of all lengths", many, |bench, i| {
        let chance = &mut Chance::new(13_000_000_000 + i as u64);
        let length = chance.below_or(40, 40, 300);
        let text = records::wide_text(chance, length);
        let options = chance.below(8) as u32;
        bench.ask(&records::split(&text, options), Source::Random);
        bench.watch(Markdown { bytes: &text, text_alone: true, more: false }, options | 56, Source::Random);
    });
    let many = run.some(50_000);
    run.stage("random records for headings and lists, with characters of all lengths", many, |bench, i| {
        let chance = &mut Chance::new(14_000_000_000 + i as u64);
        for question in [records::headings(chance), records::lists(chance)] {
            bench.ask(&records::widened(&question, chance), Source::Random);
        }
    });
    for call in READERS {
        run.stage(&format!("random lines with characters of all lengths for {}", call.name()), many, |bench, i| {
            bench.ask(&lines::wide(call, &mut Chance::new(15_000_000_000 + 8 * i as u64 + call as u64)), Source::Random);
        });
    }
}

fn captured(run: &mut Run, found: &Found) {
    let Found { files, pieces, .. } = found;
    // So few that a short run has the time for all, as the examples of CommonMark alone are, are not thinned out.
    let count = if pieces.len() < 1_000 { pieces.len() } else { pieces.len() / run.scale };
    run.stage(&format!("Markdown found ({files} files, {} pieces)", pieces.len()), count, |bench, i| {
        for (options, more) in [(63, false), (59, true), (31, false)] {
            bench.watch(Markdown { bytes: &pieces[i], text_alone: false, more }, options, Source::Captured);
        }
    });
    let many = run.some(400_000);
    run.stage("Markdown made up", many, |bench, i| {
        let chance = &mut Chance::new(6_000_000_000 + i as u64);
        let document = if chance.once_in(400) { documents::deep(chance) } else { documents::made(chance) };
        let options = *chance.pick(&[59, 63, 63, 27, 31, 57, 58, 51, 43]);
        bench.watch(Markdown { bytes: &document, text_alone: false, more: chance.once_in(3) }, options, Source::Captured);
    });
    let many = run.some(200_000);
    run.stage("Markdown made up, with tabs", many, |bench, i| {
        let chance = &mut Chance::new(11_000_000_000 + i as u64);
        let document = documents::made(chance);
        let document = documents::tabbed(&document, chance);
        let options = *chance.pick(&[59, 59, 63, 27, 31]);
        bench.watch(Markdown { bytes: &document, text_alone: false, more: false }, options, Source::Captured);
    });
    let many = run.some(100_000);
    run.stage("Markdown made up, with characters of all lengths", many, |bench, i| {
        let chance = &mut Chance::new(16_000_000_000 + i as u64);
        let document = documents::made_wide(chance);
        let options = *chance.pick(&[59, 59, 63, 27, 31]);
        bench.watch(Markdown { bytes: &document, text_alone: false, more: chance.once_in(3) }, options, Source::Captured);
    });
}

fn damaged(run: &mut Run) {
    let many = run.some(200_000);
    run.stage("damaged characters beside runs", many, |bench, i| {
        bench.ask(&damage::characters(&mut Chance::new(17_000_000_000 + i as u64)), Source::Damaged);
    });
    let many = run.some(3_000_000);
    run.stage("damaged records", many, |bench, i| {
        let (question, output, work) = damage::record(&mut Chance::new(7_000_000_000 + i as u64));
        bench.ask_lengths(&question, Source::Damaged, output, work);
    });
    let many = run.some(1_000_000);
    run.stage("damaged records of form 2", many, |bench, i| {
        let (question, output, work) = damage::record_of_form_2(&mut Chance::new(18_000_000_000 + i as u64));
        bench.ask_lengths(&question, Source::Damaged, output, work);
    });
    let many = run.some(2_000_000);
    run.stage("damaged lines", many, |bench, i| {
        let (question, output) = damage::line(&mut Chance::new(8_000_000_000 + i as u64));
        bench.ask_lengths(&question, Source::Damaged, output, library::WORK);
    });
}

/// A smaller document that shows the same kind of difference.
fn shrink(kind: &str, found: &tally::Difference) -> tally::Difference {
    let mut best = found.clone();
    let Some((text_alone, more)) = found.again else { return best };
    let mut width = best.input.len() / 2;
    while width > 0 {
        let mut at = 0;
        while at + width <= best.input.len() {
            let mut smaller = best.input.clone();
            smaller.drain(at..at + width);
            let mut bench = Bench::new();
            for source in Source::ALL {
                bench.watch(Markdown { bytes: &smaller, text_alone, more }, best.options, source);
            }
            match bench.tally.differences.remove(kind) {
                Some(again) => best = tally::Difference { count: best.count, ..again },
                None => at += width,
            }
        }
        // A character has up to four bytes: none goes unless all of them do.
        width = if width > 4 { width / 2 } else { width - 1 };
    }
    best
}

fn main() {
    let mut directories = vec![];
    let mut scale = 1;
    let mut rows = String::new();
    let mut stored = None;
    let mut arguments = std::env::args().skip(1);
    while let Some(argument) = arguments.next() {
        let mut value = || arguments.next().unwrap_or_else(|| panic!("{argument} wants a value"));
        match argument.as_str() {
            "--markdown" => directories.push(value()),
            "--store" => stored = Some(value()),
            "--differences" => rows = std::fs::read_to_string(value()).expect("the list of differences"),
            "--scale" => scale = value().parse().expect("a number"),
            other => panic!("no such argument: {other}"),
        }
    }
    // The crate's panics are counted, not printed.
    std::panic::set_hook(Box::new(|panic| {
        if panic.location().is_some_and(|place| place.file().contains("driver")) {
            eprintln!("\n{panic}");
        }
    }));
    if let Some(file) = stored {
        return store::store(&file);
    }
    let mut run = Run { tally: Tally::default(), start: Instant::now(), scale };
    exhaustive(&mut run);
    random(&mut run);
    random_beyond_ascii(&mut run);
    let found = documents::found(&directories);
    captured(&mut run, &found);
    damaged(&mut run);
    println!();
    run.tally.print();
    let mut unlisted = departures::run() + standard::run(&found.examples);
    for (kind, difference) in &run.tally.differences {
        let listed = LISTED.iter().find(|(_, cause)| kind.contains(cause)).filter(|(number, _)| rows.contains(&format!("| {number} |")));
        let note = match listed {
            Some((number, _)) => format!("listed as {number}"),
            None if kind.starts_with(PANIC) => "nothing to compare".into(),
            None => {
                unlisted += 1;
                "NOT LISTED".into()
            }
        };
        println!("{kind}: {} times, {note}; the smallest:\n    {}\n", difference.count, shrink(kind, difference).text);
    }
    let [old, second] = Form::ALL.map(|form| run.tally.total(form));
    println!("{old} comparisons and {second} in form 2, {unlisted} kinds of difference not listed, {:.0} s", run.start.elapsed().as_secs_f64());
    std::process::exit(i32::from(unlisted > 0));
}
