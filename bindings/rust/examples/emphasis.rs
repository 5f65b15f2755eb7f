// Resolves `*a*`, in which two runs of a marker have been found, and data between them.

use ledgerlark::{record, resolve_attention_to_vec, Event, Name, Options, Refusal, Work};

fn main() -> Result<(), Refusal> {
    let run = Name::ATTENTION_SEQUENCE;
    let events = [Event::pair(run, 0, 1), Event::pair(Name::DATA, 1, 2), Event::pair(run, 2, 3)].concat();
    let record = record(b"*a*", &events);
    for event in resolve_attention_to_vec(&record, Options::default(), &mut Work::new())? {
        println!("{event}"); // +Emphasis@0, +EmphasisSequence@0, -EmphasisSequence@1, ..
    }
    Ok(())
}
