//! Times the static library beside the crate markdown 1.0.0: the same records, the same run, the least of many calls.
//!
//!     bench                 all tables
//!     bench cases           the names of the records, with their numbers
//!     bench stacks          the crate alone, on the records in which it compares many stacks of open events
//!     bench call N SIDE C   record N resolved C times by SIDE, `lark` or `crate`, for a profiler
//!     bench counted         the records whose instructions `bench/run` counts
//!     bench records         every record, for bench/forms.c
//!     bench costs F W C     the instructions to a call in the file F that callgrind left of C calls, and those of functions named with W
//!
//! What is timed of the crate is its resolver alone: the events are put back before each call, outside the timer, and nothing is checked,
//! since it trusts them. What is timed of the library is the whole call: the check of the record, the section written, the work memory wiped.
//! Before anything is timed, both have to give the same events.
//!
//! Every record takes its turn in each of several rounds, so that a burst of other work on the machine spoils no single row.

mod inputs;
mod lark;

use std::cell::RefCell;
use std::collections::HashMap;
use std::hint::black_box;
use std::io::{self, Write};
use std::ops::RangeInclusive;
use std::time::{Duration, Instant};

use crate_side::{read_section, with_prepared, write_record, Resolver, Settings};
use inputs::{Case, Sort, OPTIONS};
use lark::{Lent, WORK};

const ROUNDS: usize = 12;
/// How long a record is called by one side in one round, and how often at least and at most.
const TURN: Duration = Duration::from_millis(6);
const CALLS: RangeInclusive<usize> = 5..=400;

/// The least times of a record, in nanoseconds, and what the library said of it.
#[derive(Clone, Default)]
struct Row {
    theirs: f64,
    ours: f64,
    floor: f64,
    groups: usize,
    tried: usize,
}

/// The least time of a call that is made over and over for one turn. `ready` is outside the timer.
fn least<T>(with: &mut T, mut ready: impl FnMut(&mut T), mut call: impl FnMut(&mut T)) -> f64 {
    let begun = Instant::now();
    let mut best = f64::MAX;
    for made in 1..=*CALLS.end() {
        ready(with);
        let from = Instant::now();
        call(with);
        let took = from.elapsed().as_nanos() as f64;
        best = best.min(took);
        if made >= *CALLS.start() && begun.elapsed() > TURN {
            break;
        }
    }
    best
}

fn lower(to: &mut f64, by: f64) {
    if *to == 0.0 || by < *to {
        *to = by;
    }
}

/// Both sides on one record: the same events, or this run is worth nothing.
fn compare(case: &Case, settings: &Settings, lent: &mut Lent) -> (usize, usize) {
    let (mut groups, mut tried) = (0, 0);
    for part in &case.parts {
        let record = write_record(&part.document, &part.events);
        let answer = lent.resolve(case.which, &record, OPTIONS);
        assert_eq!(answer.number, 0, "{}: refused at {}", case.name, answer.place);
        let ours = read_section(&lent.out[..4 + 8 * answer.events]);
        let theirs = with_prepared(case.which, &part.document, &part.events, settings, |prepared| {
            prepared.run();
            prepared.events()
        });
        assert!(ours == theirs, "{}: the events differ", case.name);
        groups += answer.groups;
        tried += answer.tried;
    }
    (groups, tried)
}

/// One turn of a record: the crate, the library, the floor. The times of several parts are added up.
fn turn(case: &Case, row: &mut [Row], settings: &Settings, lent: &mut Lent, clock: f64) {
    for (part, row) in case.parts.iter().zip(row) {
        let record = write_record(&part.document, &part.events);
        let theirs = with_prepared(case.which, &part.document, &part.events, settings, |prepared| {
            least(prepared, |prepared| prepared.set(), |prepared| prepared.run())
        });
        lower(&mut row.theirs, theirs - clock);
        let mut events = 0;
        // The answer is lent to `black_box`: given away, it is copied while the timer runs, and that took about 100 ns of a short call.
        let ours = least(lent, |_| (), |lent| events = black_box(&lent.resolve(case.which, black_box(&record), OPTIONS)).events);
        lower(&mut row.ours, ours - clock);
        let from = lent.out[..4 + 8 * events].to_vec();
        let floor = least(lent, |_| (), |lent| {
            lent.out[..from.len()].copy_from_slice(black_box(&from));
            black_box(&mut lent.work).fill(0);
            black_box(&lent);
        });
        lower(&mut row.floor, floor - clock);
    }
}

/// What the two looks at the clock cost by themselves.
fn clock() -> f64 {
    (0..20_000).map(|_| Instant::now().elapsed().as_nanos() as f64).fold(f64::MAX, f64::min)
}

fn wipe(lent: &mut Lent, clock: f64) -> f64 {
    (0..10).map(|_| least(lent, |_| (), |lent| black_box(&mut lent.work).fill(0))).fold(f64::MAX, f64::min) - clock
}

fn grouped(number: f64) -> String {
    let digits = format!("{number:.0}");
    let mut out = String::new();
    for (at, digit) in digits.chars().enumerate() {
        if at > 0 && (digits.len() - at) % 3 == 0 {
            out.push(',');
        }
        out.push(digit);
    }
    out
}

/// Whether the candidates tried grow no faster than the runs.
fn linear(row: &Row, runs: usize) -> bool {
    row.tried <= 2 * runs
}

struct Verdicts {
    reached: usize,
    missed: Vec<String>,
}

impl Verdicts {
    fn judge(&mut self, reached: bool, what: impl FnOnce() -> String) {
        if reached {
            self.reached += 1;
        } else {
            self.missed.push(what());
        }
    }
}

fn resolvers(lent: &mut Lent) {
    let settings = Settings::new(OPTIONS);
    let cases = inputs::cases();
    let clock = clock();
    let mut wiped = wipe(lent, clock);
    let found: Vec<(usize, usize)> = cases.iter().map(|case| compare(case, &settings, lent)).collect();
    let mut rows: Vec<Vec<Row>> = cases.iter().map(|case| vec![Row::default(); case.parts.len()]).collect();
    for round in 0..ROUNDS {
        eprint!("\rround {} of {ROUNDS}, {} records ", round + 1, cases.len());
        for (case, row) in cases.iter().zip(&mut rows) {
            turn(case, row, &settings, lent, clock);
        }
        wiped = wiped.min(wipe(lent, clock));
    }
    eprintln!();
    let rows: Vec<Row> = rows
        .iter()
        .zip(found)
        .map(|(parts, (groups, tried))| Row {
            theirs: parts.iter().map(|row| row.theirs).sum(),
            ours: parts.iter().map(|row| row.ours).sum(),
            floor: parts.iter().map(|row| row.floor).sum(),
            groups,
            tried,
        })
        .collect();

    println!("The wipe of {WORK} bytes takes {wiped:.0} ns. Two looks at the clock take {clock:.0} ns, which are taken off every figure.");
    let mut verdicts = Verdicts { reached: 0, missed: vec![] };
    for (which, title) in [(Resolver::Attention, "attention"), (Resolver::Lists, "lists"), (Resolver::Headings, "headings")] {
        let attention = which == Resolver::Attention;
        let sides = "crate, ns | ledgerlark, ns | times as fast | floor, ns |";
        if attention {
            println!("\n| {title} | events | runs | groups | tried | {sides} ns a candidate |\n|---|--:|--:|--:|--:|--:|--:|--:|--:|--:|");
        } else {
            println!("\n| {title} | events | {sides}\n|---|--:|--:|--:|--:|--:|");
        }
        for (case, row) in cases.iter().zip(&rows).filter(|(case, _)| case.which == which) {
            let (runs, times) = (case.runs(), row.theirs / row.ours);
            print!("| {} | {} |", case.name, case.events());
            if attention {
                print!(" {runs} | {} | {} |", row.groups, row.tried);
            }
            let digits = if times < 20.0 { 2 } else { 0 };
            print!(" {} | {} | {times:.digits$} | {} |", grouped(row.theirs), grouped(row.ours), grouped(row.floor));
            if attention && case.sort == Sort::Hostile && !linear(row, runs) {
                print!(" {:.2} |", (row.ours - wiped) / row.tried as f64);
            } else if attention {
                print!(" |");
            }
            println!();
        }
    }

    for (case, row) in cases.iter().zip(&rows).filter(|(case, _)| case.which == Resolver::Attention) {
        let runs = case.runs();
        let times = row.theirs / row.ours;
        let limit = runs + 1 >= inputs::SIZES[2] || case.sort == Sort::Single;
        match case.sort {
            Sort::Short => {
                let over = row.ours - row.theirs;
                let most = wiped * case.parts.len() as f64;
                verdicts.judge(over <= most, || format!("{}: {over:.0} ns over the crate, the wipe is {most:.0}", case.name));
            }
            Sort::Ordinary => verdicts.judge(times >= 1.0, || format!("{}: {times:.2} times as fast, and not 1", case.name)),
            Sort::Hostile | Sort::Single if limit => {
                let wanted = if linear(row, runs) { 100.0 } else { 20.0 };
                verdicts.judge(times >= wanted, || format!("{} at the limit: {times:.1} times as fast, and not {wanted}", case.name));
                if !linear(row, runs) && case.sort == Sort::Hostile {
                    let candidate = (row.ours - wiped) / row.tried as f64;
                    verdicts.judge(candidate <= 3.0, || format!("{}: {candidate:.2} ns a candidate, and not 3", case.name));
                }
            }
            _ => (),
        }
    }
    println!("\n| growth from 256 to 1,024 runs | crate | ledgerlark |\n|---|--:|--:|");
    for (at, case) in cases.iter().enumerate().filter(|(_, case)| case.sort == Sort::Hostile && case.runs() == inputs::SIZES[1]) {
        let (small, large) = (&rows[at], &rows[at + 1]);
        let (theirs, ours) = (large.theirs / small.theirs, large.ours / small.ours);
        let is_linear = linear(large, cases[at + 1].runs());
        println!("| {}{} | {theirs:.1} | {ours:.2} |", case.name, if is_linear { "" } else { " (tried is quadratic)" });
        if is_linear {
            verdicts.judge(ours <= 4.4, || format!("{}: grows {ours:.2} times, and not 4.4", case.name));
        }
    }
    println!("\n{} targets of attention reached, {} missed{}", verdicts.reached, verdicts.missed.len(), if verdicts.missed.is_empty() { "." } else { ":" });
    for missed in &verdicts.missed {
        println!("- {missed}");
    }
}

/// A line reader on one line, for both sides.
struct Reading<'a> {
    name: &'a str,
    line: &'a [u8],
    theirs: Box<dyn Fn(&[u8]) + 'a>,
    ours: Box<dyn Fn(&[u8]) + 'a>,
}

/// Both sides on one line: the same numbers, or this run is worth nothing.
fn reading<'a, T: 'a, O: 'a>(
    name: &'a str,
    line: &'a [u8],
    theirs: impl Fn(&[u8]) -> T + 'a,
    ours: impl Fn(&[u8]) -> O + 'a,
    same: impl Fn(T, O) -> bool,
) -> Reading<'a> {
    assert!(same(theirs(line), ours(line)), "{name}: the answers differ");
    Reading {
        name,
        line,
        theirs: Box::new(move |line| {
            black_box(theirs(line));
        }),
        ours: Box::new(move |line| {
            black_box(ours(line));
        }),
    }
}

/// Many calls to one look at the clock: a reader may be done sooner than the clock.
fn many(line: &[u8], call: &dyn Fn(&[u8]), clock: f64) -> f64 {
    let batch = if line.len() > 200 { 10 } else { 200 };
    (least(&mut (), |()| (), |()| (0..batch).for_each(|_| call(black_box(line)))) - clock) / f64::from(batch)
}

fn readers() {
    let settings = &Settings::new(OPTIONS);
    let start = crate_side::Start::default;
    let lent = &RefCell::new(Lent::new());
    let spaces = " ".repeat(1_000);
    let tabs = "\t".repeat(250);
    let text = "No item and no heading: a line of a paragraph, as long as they mostly are, with a few words more.";
    let breaks = format!("{}x", "- ".repeat(500));
    let words = format!("## {}", "word ".repeat(200));
    let space_or_tab = |name, line, max| {
        let theirs = move |line: &[u8]| crate_side::space_or_tab(line, settings, start(), 0, max);
        reading(name, line, theirs, move |line| lark::space_or_tab(line, OPTIONS, 0, 0, max), |t, o| {
            (o.found, o.taken, o.left) == t.map_or((0, 0, 0), |t| (1, t.bytes, t.left))
        })
    };
    let list_item = |name, line| {
        let theirs = |line: &[u8]| crate_side::list_item(line, settings, start(), false);
        reading(name, line, theirs, |line| lark::list_item(line, OPTIONS, 0, false), |t, o| match t {
            None => o.found == 0,
            Some(t) => {
                let theirs = (1, t.taken.bytes, t.taken.left, t.size, usize::from(t.blank), usize::from(t.mark));
                (o.found, o.taken, o.left, o.size, o.blank, o.mark) == theirs
            }
        })
    };
    let continuation = |name, line| {
        let theirs = |line: &[u8]| crate_side::continuation(line, settings, start(), 2, false);
        reading(name, line, theirs, |line| lark::continuation(line, OPTIONS, 0, 2, false, b'-'), |t, o| {
            let (found, taken, left) = t.taken.map_or((0, 0, 0), |t| (1, t.bytes, t.left));
            (o.found, o.taken, o.left, o.blank) == (found, taken, left, usize::from(t.blank))
        })
    };
    let heading = |name, line| {
        let theirs = |line: &[u8]| crate_side::heading(line, settings, start());
        reading(name, line, theirs, |line| lent.borrow_mut().heading(line, OPTIONS), |t, o| match t {
            None => o.found == 0,
            Some(t) => o.found == 1 && t == read_section(&lent.borrow().out[..4 + 8 * o.events]),
        })
    };
    let readings = [
        space_or_tab("space-or-tab, an empty line", b"", 3),
        space_or_tab("space-or-tab, two spaces and a word", b"  word", 3),
        space_or_tab("space-or-tab, 1,000 spaces", spaces.as_bytes(), 2_000),
        space_or_tab("space-or-tab, 250 tabs", tabs.as_bytes(), 2_000),
        list_item("list item, an item of 43 bytes", b"- an item of a list, with a few words in it"),
        list_item("list item, `123456789. a`", b"123456789. a"),
        list_item("list item, a line that is none", text.as_bytes()),
        list_item("list item, `- ` 500 times and then `x`", breaks.as_bytes()),
        continuation("continuation, two spaces and a word", b"  word"),
        continuation("continuation, a line that is none", text.as_bytes()),
        heading("heading, `## First steps`", b"## First steps"),
        heading("heading, 200 words", words.as_bytes()),
        heading("heading, a line that is none", text.as_bytes()),
    ];
    let clock = clock();
    let mut rows = vec![(0.0, 0.0); readings.len()];
    for round in 0..ROUNDS {
        eprint!("\rround {} of {ROUNDS}, {} lines ", round + 1, readings.len());
        for (reading, row) in readings.iter().zip(&mut rows) {
            lower(&mut row.0, many(reading.line, &*reading.theirs, clock));
            lower(&mut row.1, many(reading.line, &*reading.ours, clock));
        }
    }
    eprintln!();
    println!("\n| line reader | bytes | crate, ns | ledgerlark, ns | times as fast |\n|---|--:|--:|--:|--:|");
    for (reading, (theirs, ours)) in readings.iter().zip(&rows) {
        println!("| {} | {} | {} | {ours:.1} | {:.1} |", reading.name, reading.line.len(), grouped(*theirs), theirs / ours);
    }
}

/// The crate alone, where its walk compares many stacks of open events: empty ones at top level, of one number in a container.
fn stacks() {
    let settings = Settings::new(OPTIONS);
    let clock = clock();
    for case in inputs::cases().iter().filter(|case| case.sort == Sort::Hostile && case.runs() + 1 >= inputs::SIZES[2]) {
        let part = &case.parts[0];
        let tried = Lent::new().resolve(case.which, &write_record(&part.document, &part.events), OPTIONS).tried;
        if tried <= 2 * case.runs() {
            continue;
        }
        let mut best = 0.0;
        for _ in 0..3 {
            let took = with_prepared(case.which, &part.document, &part.events, &settings, |prepared| {
                least(prepared, |prepared| prepared.set(), |prepared| prepared.run())
            });
            lower(&mut best, took - clock);
        }
        println!("| {} | {} | {tried} | {} |", case.name, case.runs(), grouped(best));
    }
}

/// One record over and over on one side, for a profiler.
fn call(number: usize, side: &str, calls: usize) {
    let case = &inputs::cases()[number];
    let settings = Settings::new(OPTIONS);
    let mut lent = Lent::new();
    for part in &case.parts {
        if side == "crate" {
            with_prepared(case.which, &part.document, &part.events, &settings, |prepared| {
                (0..calls).for_each(|_| {
                    prepared.set();
                    prepared.run();
                });
            });
        } else {
            let record = write_record(&part.document, &part.events);
            (0..calls).for_each(|_| {
                black_box(lent.resolve(case.which, black_box(&record), OPTIONS));
            });
        }
    }
}

/// The records whose instructions are counted: two ordinary ones, and at the limit one with groups, one without, and one that tries many.
fn counted(case: &Case) -> bool {
    let limit = case.runs() + 1 >= inputs::SIZES[2];
    match case.sort {
        Sort::Short | Sort::Ordinary => case.which == Resolver::Attention && (case.name.contains("chat") || case.name.contains("1,000")),
        Sort::Hostile => limit && ["`*_`ⁿ", "`a_ `ⁿ", "`~~a `ⁿ`b~ `ⁿ in a container"].contains(&case.name.as_str()),
        Sort::Single => false,
    }
}

/// Every record: a line with its resolver, its length and its name, and the bytes behind. The records of one document have one name.
fn records() -> io::Result<()> {
    let mut out = io::stdout().lock();
    for case in inputs::cases() {
        let which = match case.which {
            Resolver::Attention => "attention",
            Resolver::Headings => "headings",
            Resolver::Lists => "lists",
        };
        let size = if case.sort == Sort::Hostile { format!(", {} runs", case.runs()) } else { String::new() };
        for part in &case.parts {
            let record = write_record(&part.document, &part.events);
            writeln!(out, "{which} {} {}{size}", record.len(), case.name)?;
            out.write_all(&record)?;
        }
    }
    Ok(())
}

/// The instructions that callgrind saw, and how many of them lie in functions with this word in their names: all of them, of so many calls.
///
/// Its file names a function by a number, and says the name where the number first stands. A line that begins with a number is a cost of the
/// function that was named last, unless a line of calls stands before it: then it is the cost of what was called.
fn costs(file: &str, word: &str, calls: u64) -> (u64, u64) {
    let (mut all, mut those, mut called) = (0, 0, false);
    let mut names: HashMap<&str, &str> = HashMap::new();
    let mut inside = "";
    for line in file.lines() {
        if let Some(function) = line.strip_prefix("fn=").or(line.strip_prefix("cfn=")) {
            let (number, name) = function.split_once(' ').unwrap_or((function, ""));
            if !name.is_empty() {
                names.insert(number, name);
            }
            if line.starts_with("fn=") {
                inside = number;
            }
        } else if line.starts_with("calls=") {
            called = true;
        } else if line.starts_with(|first: char| first.is_ascii_digit() || "+-*".contains(first)) {
            let cost: u64 = line.split(' ').nth(1).and_then(|cost| cost.parse().ok()).unwrap_or(0);
            if !called {
                all += cost;
                if names.get(inside).is_some_and(|name| name.contains(word)) {
                    those += cost;
                }
            }
            called = false;
        }
    }
    (all / calls, those / calls)
}

fn main() {
    let arguments: Vec<String> = std::env::args().collect();
    let words: Vec<&str> = arguments[1..].iter().map(String::as_str).collect();
    match words[..] {
        [] => {
            resolvers(&mut Lent::new());
            readers();
        }
        ["stacks"] => stacks(),
        ["cases"] => {
            for (number, case) in inputs::cases().iter().enumerate() {
                println!("{number}\t{}\t{}\t{:?}", case.runs(), case.name, case.which);
            }
        }
        ["counted"] => {
            for (number, case) in inputs::cases().iter().enumerate().filter(|(_, case)| counted(case)) {
                println!("{number}\t{}\t{}", case.runs(), case.name);
            }
        }
        ["records"] => records().expect("the records can be written"),
        ["costs", file, word, calls] => {
            let text = std::fs::read_to_string(file).expect("a file of callgrind");
            let (all, those) = costs(&text, word, calls.parse().expect("a number"));
            println!("{} | {}", grouped(all as f64), grouped(those as f64));
        }
        ["call", number, side, calls] => call(number.parse().expect("a number"), side, calls.parse().expect("a number")),
        _ => {
            eprintln!("bench | cases | stacks | call N lark|crate CALLS | counted | records | costs FILE WORD CALLS");
            std::process::exit(2);
        }
    }
}
