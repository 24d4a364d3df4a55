//! The command stream of document 01, "Commands", as much of it as has come in a packet.

use crate::calls::{bat_time, question, BatTime, Totals};
use crate::events::{four, run_event, two, EVENT_BYTES};
use crate::head::{lent_on, seen, Head, Lent};

/// What a packet came to: how many bytes of its front were taken and how many bytes of answers written, and whether the run is over.
#[derive(Clone, Copy, PartialEq, Eq, Debug)]
pub struct Fed {
    pub taken: usize,
    pub written: usize,
    pub over: bool,
}

/// Bytes of the longest answer, that to a question.
pub const LONGEST_ANSWER: usize = 18;

/// Bytes of the longest command, a question or bat-time.
pub const LONGEST_COMMAND: usize = 13;

/// Runs the commands at the front of a packet, as long as an answer of any length has room and the command has come whole. Only where no byte
/// comes behind the packet, which `ended` says, is a command that lacks bytes cut short.
pub fn commands(head: &mut Head, mut lent: Lent, input: &[u8], ended: bool, out: &mut [u8]) -> Fed {
    let (mut taken, mut written) = (0, 0);
    while taken < input.len() {
        let rest = &input[taken..];
        let length = length_of(rest[0]).unwrap_or(1);
        let waits_for_bytes = rest.len() < length && !ended;
        if out.len() - written < LONGEST_ANSWER || waits_for_bytes {
            return Fed { taken, written, over: false };
        }
        if length_of(rest[0]).is_none() {
            out[written] = 6;
            return Fed { taken: taken + 1, written: written + 1, over: true };
        }
        if rest.len() < length {
            out[written] = 7;
            return Fed { taken: input.len(), written: written + 1, over: true };
        }
        written += run(head, lent_on(&mut lent), &rest[..length], &mut out[written..]);
        taken += length;
    }
    Fed { taken, written, over: ended }
}

/// How long a command is, by its first byte; nothing where the byte begins none.
pub fn length_of(byte: u8) -> Option<usize> {
    match byte {
        1 | 2 => Some(EVENT_BYTES),
        3 | 4 => Some(LONGEST_COMMAND),
        _ => None,
    }
}

/// Runs a whole command and writes its answer. Returns how many bytes that has.
pub fn run(head: &mut Head, lent: Lent, command: &[u8], out: &mut [u8]) -> usize {
    let (mut number, mut totals, mut time) = (0, Totals::default(), BatTime::default());
    let band = || (two(command, 1), two(command, 3), four(command, 5), four(command, 9));
    out[0] = match command[0] {
        3 => {
            let (k1, k2, t1, t2) = band();
            question(head, seen(&lent), k1, k2, t1, t2, &mut totals)
        }
        4 => {
            let (k1, k2, t1, t2) = band();
            bat_time(head, seen(&lent), k1, k2, t1, t2, &mut time)
        }
        _ => run_event(head, lent, command, &mut number),
    };
    // The pages of a question and of bat-time are at most 16, so that a byte holds them.
    match (out[0], command[0]) {
        (0, 1) => put(out, [&number.to_le_bytes()]),
        (0, 3) => put(out, [&totals.count.to_le_bytes()[..], &totals.sum.to_le_bytes(), &[totals.pages as u8]]),
        (0, 4) => put(out, [&time.total.to_le_bytes()[..], &[time.pages as u8]]),
        _ => 1,
    }
}

/// Writes what follows the first byte of an answer. Returns how many bytes the answer has.
fn put<const PARTS: usize>(out: &mut [u8], parts: [&[u8]; PARTS]) -> usize {
    let mut at = 1;
    for part in parts {
        out[at..at + part.len()].copy_from_slice(part);
        at += part.len();
    }
    at
}
