//! Starts and ends as the bytes of their commands: one of them, which the command stream runs too, and a burst of up to 256.

use crate::calls::{end, start};
use crate::head::{lent_on, Head, Lent};

/// The bytes of a start or an end, its kind before them included.
pub const EVENT_BYTES: usize = 9;

const BURST_EVENTS: usize = 256;

/// Of an event: its refusal or 0, and the new pass number or 0.
const RESULT_WORDS: usize = 2;

/// The number in two bytes of a command.
pub fn two(command: &[u8], at: usize) -> u32 {
    u16::from_le_bytes([command[at], command[at + 1]]) as u32
}

/// The number in four bytes of a command.
pub fn four(command: &[u8], at: usize) -> u32 {
    two(command, at) | two(command, at + 2) << 16
}

/// Runs a start or an end; any other kind gets 6. `number` becomes that of a pass that starts.
pub fn run_event(head: &mut Head, lent: Lent, event: &[u8], number: &mut u32) -> u8 {
    match event[0] {
        1 => start(head, lent, four(event, 1), two(event, 5), two(event, 7), number),
        2 => end(head, lent, four(event, 1), four(event, 5)),
        _ => 6,
    }
}

/// Enters events one by one in order, and writes two result words for each. A refused one is no reason not to try the next. The burst itself is
/// refused before any event is tried, or not at all.
pub fn burst(head: &mut Head, mut lent: Lent, events: &[u8], results: &mut [u64]) -> u8 {
    let count = events.len() / EVENT_BYTES;
    if events.len() > BURST_EVENTS * EVENT_BYTES || events.len() % EVENT_BYTES != 0 || results.len() < RESULT_WORDS * count {
        return 31;
    }
    for (event, result) in events.chunks_exact(EVENT_BYTES).zip(results.chunks_exact_mut(RESULT_WORDS)) {
        let mut number = 0;
        result[0] = run_event(head, lent_on(&mut lent), event, &mut number) as u64;
        result[1] = number as u64;
    }
    0
}
