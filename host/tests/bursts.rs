//! Bursts as bytes: events of starts and ends, and of kinds that there are not. What an event says is read here once more, apart from the port.

use crate::commands;
use crate::library::{Call, Random};

pub const EVENT_BYTES: usize = 9;

/// Events of the longest burst.
pub const MOST_EVENTS: usize = 256;

/// What the second byte of a key or a weight cannot say becomes a number that is refused as well.
const HIGHEST_OF_TWO_BYTES: u32 = 65_535;

/// A start or an end as an event; nothing of any other call.
pub fn event_of(call: Call) -> Option<Vec<u8>> {
    match call {
        Call::Start { tick, key, weight } => Some(commands::start(tick, key.min(HIGHEST_OF_TWO_BYTES), weight.min(HIGHEST_OF_TWO_BYTES))),
        Call::End { tick, number } => Some(commands::end(tick, number)),
        _ => None,
    }
}

/// The call that an event is; nothing where there is no such kind.
pub fn call_of(event: &[u8]) -> Option<Call> {
    let number = |bytes: &[u8]| bytes.iter().rev().fold(0, |sum, &byte| sum << 8 | byte as u32);
    match event[0] {
        1 => Some(Call::Start { tick: number(&event[1..5]), key: number(&event[5..7]), weight: number(&event[7..]) }),
        2 => Some(Call::End { tick: number(&event[1..5]), number: number(&event[5..]) }),
        _ => None,
    }
}

/// The same operands under a kind that there is not: close to one that there is, or any.
pub fn of_unknown_kind(random: &mut Random, mut event: Vec<u8>) -> Vec<u8> {
    let any = random.word() as u8;
    event[0] = *random.pick(&[0, 3, 4, event[0] | 0x80, event[0] << 4, 255, if any == 1 || any == 2 { 5 } else { any }]);
    event
}

/// An end with one bit more in the two high bytes of its number, so that it is of no open pass; a start as it is.
pub fn of_wider_number(random: &mut Random, mut event: Vec<u8>) -> Vec<u8> {
    if event[0] == 2 {
        event[7 + random.below(2) as usize] |= 1 << random.below(8);
    }
    event
}

/// Result words as they are before a call.
pub fn unset_results(words: usize) -> Vec<u64> {
    (900..).take(words).collect()
}
