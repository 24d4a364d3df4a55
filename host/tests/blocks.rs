//! The register block as a plain model, commands that come through it, and what came about of them. What a block does is said here once more, apart
//! from the port. Each program uses a part of it.

#![allow(dead_code)]

use crate::bursts;
use crate::commands;
use crate::library::{Answer, Call, Random};

/// Bytes of a register block, and where some of its registers stand.
pub const BYTES: usize = 40;
pub const OPERANDS: usize = 1;
pub const STATUS: usize = 13;
pub const FLAGS: usize = 14;
pub const MASK: usize = 15;
pub const RESULT: usize = 16;

/// As many passes as may be open together.
const OPEN_PASSES: usize = 64;

/// A block that began with a reset: a register by its name.
#[derive(Default)]
pub struct Model {
    pub command: u8,
    pub operands: [u8; 12],
    status: u8,
    done: bool,
    refused: bool,
    all_open: bool,
    mask: u8,
    result: [u8; 17],
}

impl Model {
    fn flags(&self) -> u8 {
        u8::from(self.done) + 2 * u8::from(self.refused) + 4 * u8::from(self.all_open)
    }

    /// All that the radio side sees.
    pub fn bytes(&self) -> [u8; BYTES] {
        let mut bytes = [0; BYTES];
        bytes[0] = self.command;
        bytes[OPERANDS..STATUS].copy_from_slice(&self.operands);
        (bytes[STATUS], bytes[FLAGS], bytes[MASK]) = (self.status, self.flags(), self.mask);
        bytes[RESULT..RESULT + 17].copy_from_slice(&self.result);
        bytes
    }

    /// "high exactly if a flag and its mask bit are both set"
    pub fn line(&self) -> bool {
        [(self.done, 1), (self.refused, 2), (self.all_open, 4)].iter().any(|&(flag, bit)| flag && self.mask & bit != 0)
    }

    /// A write that runs no command.
    pub fn write(&mut self, offset: usize, value: u8) {
        match offset {
            1..=12 => self.operands[offset - 1] = value,
            14 => {
                self.done &= value & 1 == 0;
                self.refused &= value & 2 == 0;
                self.all_open &= value & 4 == 0;
            }
            15 => self.mask = value,
            _ => (),
        }
    }

    /// A command byte, the answer of the command, and how many passes are open after it.
    pub fn run(&mut self, command: u8, answer: &[u8], open: usize) {
        (self.command, self.status) = (command, answer[0]);
        (self.done, self.refused, self.all_open) = (true, answer[0] != 0, open == OPEN_PASSES);
        self.result = [0; 17];
        self.result[..answer.len() - 1].copy_from_slice(&answer[1..]);
    }
}

/// The bytes of a call that is a command; nothing of any other call.
pub fn command_of(call: Call) -> Option<Vec<u8>> {
    match call {
        Call::Question { k1, k2, t1, t2 } => Some(commands::question(k1.min(65_535), k2.min(65_535), t1, t2)),
        Call::BatTime { k1, k2, t1, t2 } => Some(commands::bat_time(k1.min(65_535), k2.min(65_535), t1, t2)),
        _ => bursts::event_of(call),
    }
}

/// The call that a command byte is on 12 operands; nothing where it begins no command.
pub fn call_of(command: u8, operands: &[u8; 12]) -> Option<Call> {
    let number = |bytes: &[u8]| bytes.iter().rev().fold(0, |sum, &byte| sum << 8 | byte as u32);
    let (k1, k2, t1, t2) = (number(&operands[..2]), number(&operands[2..4]), number(&operands[4..8]), number(&operands[8..]));
    match command {
        3 => Some(Call::Question { k1, k2, t1, t2 }),
        4 => Some(Call::BatTime { k1, k2, t1, t2 }),
        _ => bursts::call_of(&[&[command], &operands[..8]].concat()),
    }
}

/// The answer of the stream to a call.
pub fn answer_of(call: Call, answer: &Answer) -> Vec<u8> {
    let totals = &answer.totals;
    match call {
        _ if answer.refusal != 0 => vec![answer.refusal],
        Call::Start { .. } => [&[0], &answer.number.to_le_bytes()[..]].concat(),
        Call::Question { .. } => [&[0], &totals.count.to_le_bytes()[..], &totals.sum.to_le_bytes(), &[totals.pages as u8]].concat(),
        Call::BatTime { .. } => [&[0], &answer.time.total.to_le_bytes()[..], &[answer.time.pages as u8]].concat(),
        _ => vec![0],
    }
}

/// A byte that begins no command: close to one that does, or any.
pub fn unknown_byte(random: &mut Random) -> u8 {
    let any = random.word() as u8;
    *random.pick(&[0, 5, 0x81, 0x82, 0x83, 0x84, 0x10, 255, if (1..=4).contains(&any) { 6 } else { any }])
}

/// An offset at which no command is run: a register, one behind them, or one far past the block.
pub fn other_offset(random: &mut Random) -> usize {
    match random.below(8) {
        0 => 40 + random.below(40) as usize,
        1 => 256 + random.below(40) as usize,
        2 => (random.word() as usize).max(1),
        _ => 1 + random.below(39) as usize,
    }
}

/// What came about in register blocks.
#[derive(Default)]
pub struct Accessed {
    starts: u64,
    ends: u64,
    questions: u64,
    bat_times: u64,
    refused: u64,
    unknown: u64,
    /// Commands refused with 27, and with 28
    no_pages: u64,
    no_root: u64,
    /// Starts that left 64 open, and commands that were refused with as many open
    all_open: u64,
    refused_all_open: u64,
    /// Commands with a shorter answer than the one before
    shorter: u64,
    longest: usize,
    pub again: u64,
    /// Writes to the flags that cleared one, to the mask, and to no register or to one that cannot be written
    pub cleared: u64,
    pub masked: u64,
    pub ignored: u64,
    pub resets: u64,
    /// Accesses after which the line had risen, and had fallen
    rose: u64,
    fell: u64,
    is_high: bool,
}

impl Accessed {
    /// A command, what it is if it is one, its answer, and how many passes are open after it.
    pub fn count(&mut self, call: Option<Call>, answer: &[u8], open: usize) {
        let accepted = u64::from(answer[0] == 0);
        match call {
            Some(Call::Start { .. }) => {
                self.starts += accepted;
                self.all_open += accepted * u64::from(open == OPEN_PASSES);
            }
            Some(Call::End { .. }) => self.ends += accepted,
            Some(Call::BatTime { .. }) => self.bat_times += accepted,
            Some(_) => self.questions += accepted,
            None => self.unknown += 1,
        }
        self.refused += 1 - accepted;
        self.no_pages += u64::from(answer[0] == 27);
        self.no_root += u64::from(answer[0] == 28);
        self.refused_all_open += (1 - accepted) * u64::from(open == OPEN_PASSES);
        self.shorter += u64::from(answer.len() < self.longest);
        self.longest = answer.len();
    }

    /// The line after an access.
    pub fn see_line(&mut self, high: bool) {
        self.rose += u64::from(high && !self.is_high);
        self.fell += u64::from(!high && self.is_high);
        self.is_high = high;
    }

    /// Each with its name. One that never came about is a test that was not made.
    pub fn named(&self) -> [(u64, &'static str); 18] {
        [
            (self.starts, "starts accepted through a register block"),
            (self.ends, "ends"),
            (self.questions, "questions"),
            (self.bat_times, "bat-times"),
            (self.refused, "commands refused"),
            (self.unknown, "unknown"),
            (self.no_pages, "refused with 27"),
            (self.no_root, "with 28"),
            (self.all_open, "starts that left 64 open"),
            (self.refused_all_open, "commands refused with 64 open"),
            (self.shorter, "answers shorter than the one before"),
            (self.again, "commands run again on the same operands"),
            (self.cleared, "flags cleared"),
            (self.masked, "masks written"),
            (self.ignored, "writes ignored"),
            (self.resets, "resets"),
            (self.rose, "times the line rose"),
            (self.fell, "times it fell"),
        ]
    }
}
