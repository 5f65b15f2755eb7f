// The binding without its feature `alloc`, in a library that has neither std nor an allocator: the tests of the crate cannot be so, since what runs
// them needs both. If anything in the crate named std, this would not compile: there would be two panic handlers.
#![no_std]
#![no_main]

use ledgerlark::{record2_into, record_into, resolve_attention, resolve_attention2, Event, Events2, Name, Options, Refusal, Work};

#[panic_handler]
fn panic(_: &core::panic::PanicInfo<'_>) -> ! {
    loop {}
}

/// What `core` names for unwinding, which is std's otherwise. Nothing unwinds here, and some linkers ask for the name all the same.
#[no_mangle]
extern "C" fn rust_eh_personality() {}

/// How many events `*a*` comes to, and in form 2 the partner of the first, all in memory of the stack.
fn events() -> Result<(usize, Option<usize>), Refusal> {
    let (mut bytes, mut out, mut memory) = ([0; 100], [0; 150], [0; Work::LENGTH]);
    let mut work = Work::from(&mut memory);
    let run = Name::ATTENTION_SEQUENCE;
    let events = [Event::pair(run, 0, 1), Event::pair(Name::DATA, 1, 2), Event::pair(run, 2, 3)];
    let record = record_into(b"*a*", events.into_iter().flatten(), &mut bytes).unwrap_or_default();
    let count = resolve_attention(record, Options::default(), &mut out, &mut work)?.events;
    let record = record2_into(Options::default(), b"*a*", events.into_iter().flatten(), &mut bytes).unwrap_or_default();
    let section = resolve_attention2(record, &mut out, &mut work)?.section;
    Ok((count, Events2::new(section).get(0).map(|event| event.partner)))
}

/// Status 0 if they are ten, and the last is the first one's partner.
#[no_mangle]
pub extern "C" fn main() -> i32 {
    (events() != Ok((10, Some(9)))).into()
}
