//! The register block of document 02, Paper 3: 40 bytes through which the radio chip runs the commands of the stream. Any 40 bytes may come.

use crate::head::{Head, Lent, OPEN_LIMIT};
use crate::stream::{length_of, run, LONGEST_ANSWER, LONGEST_COMMAND};

pub const BLOCK_BYTES: usize = 40;
pub type Block = [u8; BLOCK_BYTES];

const COMMAND: usize = 0;
const FIRST_OPERAND: usize = 1;
const LAST_OPERAND: usize = 12;
const STATUS: usize = 13;
const FLAGS: usize = 14;
const MASK: usize = 15;
const RESULT: usize = 16;

/// The registers end here; the bytes behind them read zero.
const REGISTERS: usize = 33;

const DONE: u8 = 1;
const REFUSED: u8 = 2;
const ALL_OPEN: u8 = 4;
const ALL_FLAGS: u8 = DONE | REFUSED | ALL_OPEN;

const UNKNOWN_COMMAND: u8 = 6;

/// Clears the block, its mask included.
pub fn block_reset(block: &mut Block) {
    block.fill(0);
}

/// What the radio side reads. The offset may lie past the block.
pub fn block_read(block: &Block, offset: usize) -> u8 {
    match offset {
        FLAGS => block[FLAGS] & ALL_FLAGS,
        0..REGISTERS => block[offset],
        _ => 0,
    }
}

/// Whether the interrupt line is high.
pub fn block_line(block: &Block) -> bool {
    block[FLAGS] & block[MASK] & ALL_FLAGS != 0
}

/// What the radio side's write does. The offset may lie past the block. Only a write to the command has to do with the store.
pub fn block_write(head: &mut Head, lent: Lent, block: &mut Block, offset: usize, value: u8) {
    if offset != COMMAND {
        return write_register(block, offset, value);
    }
    block[COMMAND] = value;
    run_registers(head, lent, block);
}

/// A write that runs no command.
pub fn write_register(block: &mut Block, offset: usize, value: u8) {
    match offset {
        FIRST_OPERAND..=LAST_OPERAND | MASK => block[offset] = value,
        FLAGS => block[FLAGS] &= !value & ALL_FLAGS,
        _ => (),
    }
}

/// Runs the command register on the operands, and sets status, flags and result anew.
fn run_registers(head: &mut Head, lent: Lent, block: &mut Block) {
    let mut answer = [0; LONGEST_ANSWER];
    let command: [u8; LONGEST_COMMAND] = block[..LONGEST_COMMAND].try_into().unwrap();
    match length_of(command[0]) {
        Some(length) => {
            run(head, lent, &command[..length], &mut answer);
        }
        None => answer[0] = UNKNOWN_COMMAND,
    }
    block[STATUS] = answer[0];
    block[RESULT..REGISTERS].copy_from_slice(&answer[1..]);
    block[FLAGS] = DONE
        | if answer[0] != 0 { REFUSED } else { 0 }
        | if head.count_open == OPEN_LIMIT { ALL_OPEN } else { 0 };
}
