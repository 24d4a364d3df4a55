//! Commands as bytes, and command streams that are made here, with what the port writes for them: a long one, full tables, bytes that begin no
//! command. Each program uses a part of it.

#![allow(dead_code)]

use crate::library::{by_port, packet_by_port, Call, Random, Store};
use port::{ENDS, STARTS, TIME, TREES};

/// A whole input, and all that must be written for it.
pub struct Stream {
    pub name: String,
    pub input: Vec<u8>,
    pub output: Vec<u8>,
}

/// A stream command by command, with the answer to each; then what is written when the input ends. A run that is over ends by itself.
pub struct Talk {
    pub turns: Vec<(Vec<u8>, Vec<u8>)>,
    pub over: bool,
    pub at_end: Vec<u8>,
}

const LONGEST_ANSWER: usize = 18;

pub fn start(tick: u32, key: u32, weight: u32) -> Vec<u8> {
    [&[1][..], &tick.to_le_bytes(), &(key as u16).to_le_bytes(), &(weight as u16).to_le_bytes()].concat()
}

pub fn end(tick: u32, number: u32) -> Vec<u8> {
    [&[2][..], &tick.to_le_bytes(), &number.to_le_bytes()].concat()
}

pub fn question(k1: u32, k2: u32, t1: u32, t2: u32) -> Vec<u8> {
    [&[3][..], &(k1 as u16).to_le_bytes(), &(k2 as u16).to_le_bytes(), &t1.to_le_bytes(), &t2.to_le_bytes()].concat()
}

/// Command 04h has the operands of a question.
pub fn bat_time(k1: u32, k2: u32, t1: u32, t2: u32) -> Vec<u8> {
    let mut command = question(k1, k2, t1, t2);
    command[0] = 4;
    command
}

/// "the program's tables shrink to 10 pages and 10 roots a tree" (document 02, Paper 4)
const PROGRAM_PAGES: usize = 10;

fn program_store() -> Store {
    let mut store = Store::lent(PROGRAM_PAGES, PROGRAM_PAGES);
    assert!(by_port(&mut store, Call::Open).refusal == 0);
    store
}

/// The command at the front of an input, as far as it has come.
fn first_command(input: &[u8]) -> &[u8] {
    let length = match input[0] {
        1 | 2 => 9,
        3 | 4 => 13,
        _ => 1,
    };
    &input[..length.min(input.len())]
}

/// What the port writes for one command, and whether the run is over then.
fn answer(store: &mut Store, command: &[u8], ended: bool) -> (Vec<u8>, bool) {
    let mut out = [0; LONGEST_ANSWER];
    let fed = packet_by_port(store, command, ended, &mut out);
    (out[..fed.written].to_vec(), fed.over)
}

pub fn talk(input: &[u8]) -> Talk {
    let mut store = program_store();
    let mut talk = Talk { turns: Vec::new(), over: false, at_end: Vec::new() };
    let mut rest = input;
    while !rest.is_empty() && !talk.over {
        let command = first_command(rest);
        let (said, over) = answer(&mut store, command, false);
        rest = &rest[command.len()..];
        // Only a command that lacks bytes has no answer, and it is the last one.
        if said.is_empty() {
            talk.at_end = answer(&mut store, command, true).0;
        }
        talk.turns.push((command.to_vec(), said));
        talk.over = over;
    }
    talk
}

fn stream(name: &str, input: Vec<u8>) -> Stream {
    let talk = talk(&input);
    let said = talk.turns.into_iter().flat_map(|turn| turn.1);
    Stream { name: name.to_string(), input, output: said.chain(talk.at_end).collect() }
}

/// Every byte that begins no command, alone and between two commands.
pub fn unknown_bytes() -> Vec<Stream> {
    let unknown = (0..=255u8).filter(|byte| !(1..=4).contains(byte));
    let of = |byte: u8| {
        let between = [start(1, 4_500, 100), vec![byte], start(2, 4_500, 100)].concat();
        [stream(&format!("byte {byte} alone"), vec![byte]), stream(&format!("byte {byte} after a start"), between)]
    };
    unknown.flat_map(of).collect()
}

/// A long stream. Ticks rise seldom and keys are few, since rows born at the same tick are altered where they are: so 10 pages last for
/// thousands of passes.
pub fn long(commands: usize) -> Stream {
    let (mut random, mut store) = (Random(1), program_store());
    let (mut input, mut output) = (Vec::new(), Vec::new());
    for _ in 0..commands {
        let tick = store.head.last + u32::from(random.one_in(700));
        let open = store.head.passes[random.below(store.head.count_open) as usize].number;
        let command = match random.below(20) {
            0 => start(tick, random.below(65_536), random.below(65_536)),
            1..=9 => start(tick, 4_500, random.between(1, 10_000)),
            10 => end(random.below(tick + 2), random.below(store.head.started + 2)),
            11..=17 => end(tick, open),
            18 => bat_time(random.below(5_000), random.between(4_000, 30_000), random.below(tick + 1), random.below(tick + 2)),
            _ => question(random.below(5_000), random.between(4_000, 30_000), random.below(tick + 1), random.below(tick + 2)),
        };
        output.extend(answer(&mut store, &command, false).0);
        input.extend(command);
    }
    Stream { name: format!("{commands} commands"), input, output }
}

/// Ticks at each of which a pass of one key starts and the one before it ends, be it in this order or the other way round. The first of the two adds a row to
/// the tree of its own and to that of time, and the second adds none to the latter: those two trees run full together. The commands go on after that.
fn full_together(name: &str, starts_first: bool) -> Stream {
    let mut input = start(0, 4_500, 100);
    for number in 0..1_000 {
        let (starts, ends) = (start(number + 1, 4_500, 100), end(number + 1, number));
        input.extend(if starts_first { [starts, ends] } else { [ends, starts] }.concat());
        input.extend(question(0, 30_000, 0, u32::MAX));
        input.extend(bat_time(0, 30_000, 0, u32::MAX));
    }
    stream(name, input)
}

/// Rounds of 60 passes of one key, starts and ends all at rising ticks: the tree of time has twice as many rows as the others. The commands go on for as
/// many rounds again after it has run full.
fn full_of_time(name: &str) -> Stream {
    let mut input = Vec::new();
    for round in 0..12 {
        for place in 0..60 {
            input.extend(start(1 + 120 * round + place, 4_500, 100));
        }
        for place in 0..60 {
            input.extend(end(61 + 120 * round + place, 60 * round + place));
        }
        input.extend(question(0, 30_000, 0, u32::MAX));
        input.extend(bat_time(0, 30_000, 0, u32::MAX));
    }
    stream(name, input)
}

/// The pages that each tree uses when the first command of a stream is refused with 27, and that command's first byte.
fn at_first_27(input: &[u8]) -> ([usize; TREES], u8) {
    let (mut store, mut rest) = (program_store(), input);
    loop {
        let command = first_command(rest);
        if answer(&mut store, command, false).0 == [27] {
            return (store.head.uses.map(|used| used.pages as usize), command[0]);
        }
        rest = &rest[command.len()..];
    }
}

/// The streams on which tables run full: of starts and of time, of ends and of time, of time alone. Later questions and bat-times must be accepted.
pub fn full_tables() -> [Stream; 3] {
    let streams = [
        full_together("the tables of starts and of time full", true),
        full_together("the tables of ends and of time full", false),
        full_of_time("the table of time full"),
    ];
    let [starts, ends, time] = streams.each_ref().map(|stream| at_first_27(&stream.input));
    assert!(starts.1 == 1 && starts.0[STARTS] == PROGRAM_PAGES && starts.0[TIME] == PROGRAM_PAGES, "another table than that of starts runs full");
    assert!(ends.1 == 2 && ends.0[ENDS] == PROGRAM_PAGES && ends.0[TIME] == PROGRAM_PAGES, "another table than that of ends runs full");
    assert!(time.0[STARTS] < PROGRAM_PAGES && time.0[ENDS] < PROGRAM_PAGES && time.0[TIME] == PROGRAM_PAGES, "not that of time alone runs full");
    for stream in &streams {
        let turns = talk(&stream.input).turns;
        let first = turns.iter().position(|turn| turn.1 == [27]).expect("a table runs full");
        for command in [3, 4] {
            assert!(turns[first..].iter().any(|turn| turn.0[0] == command && turn.1[0] == 0), "none is accepted after it: {}", stream.name);
        }
    }
    streams
}
