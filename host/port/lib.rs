//! A plain port of document 01, "A pass index for the sealed detector", as Papers 1 to 4 of document 02 change it: the same calls, refusals and
//! words as the proved library, written as an engineer would write it without proofs. It serves as a second opinion in the tests and as the measure
//! in the benchmark.
//!
//! The calls of a store are in `calls`: opening, start, end, question, bat-time and the lookup of each of the three trees. The two that take commands as
//! bytes are in `stream`, which runs a packet of them, and in `events`, which enters a burst of starts and ends; the four of the register block are in
//! `block`. `export.rs` offers all of them to C under the library's names. None of them allocates; all memory is lent.

mod block;
mod calls;
mod enter;
mod events;
mod head;
mod lookup;
mod page;
mod plan;
mod stream;
mod words;

pub use block::{block_line, block_read, block_reset, block_write, write_register, Block, BLOCK_BYTES};
pub use calls::{bat_time, end, look_up, open, question, start, BatTime, Totals};
pub use events::burst;
pub use head::{seen, Head, Lent, Memory, Pass, Seen, Shown, TreeUse, ENDS, HEAD_NUMBERS, STARTS, TIME, TREES};
pub use stream::{commands, Fed};
