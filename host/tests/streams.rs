//! Command streams through a command program: what it writes, byte for byte. First the streams of host/vectors; then others that are made here, with
//! what the port writes for them; then both again in small pieces, and command by command.
//!
//! streams PROGRAM STREAMS

mod commands;
mod library;
mod through;

use commands::{full_tables, long, talk, unknown_bytes, Stream};
use library::Random;
use std::process::ExitCode;
use std::time::Duration;
use through::{answers_in_turn, written};

/// More commands than a number of 16 bits counts.
const LONG: usize = 70_000;

/// How long a stream may be that is written slowly, in bytes; how long its pieces are, and the pause after each.
const SHORT: usize = 1_000;
const LARGEST_PIECE: u32 = 20;
const PAUSE: Duration = Duration::from_micros(50);

fn bytes_of(hex: &str) -> Vec<u8> {
    let digits = if hex == "-" { "" } else { hex };
    (0..digits.len() / 2).map(|at| u8::from_str_radix(&digits[2 * at..2 * at + 2], 16).expect("a stream is hexadecimal")).collect()
}

fn stored(path: &str) -> Vec<Stream> {
    let text = std::fs::read_to_string(path).expect("the streams can be read");
    let of_line = |line: &str| {
        let [name, input, output] = line.split(' ').collect::<Vec<_>>()[..] else { panic!("a line has three parts: {line}") };
        Stream { name: name.to_string(), input: bytes_of(input), output: bytes_of(output) }
    };
    text.lines().map(of_line).collect()
}

/// Counts the streams that differ, and names them.
fn differing<'a>(streams: impl IntoIterator<Item = &'a Stream>, mut same: impl FnMut(&Stream) -> bool) -> usize {
    let differs = |stream: &&Stream| {
        let differs = !same(stream);
        if differs {
            println!("differs: {}", stream.name);
        }
        differs
    };
    streams.into_iter().filter(differs).count()
}

/// Each stream at once.
fn at_once(program: &str, streams: &[Stream]) -> usize {
    let writes = |stream: &Stream| written(program, vec![stream.input.clone()], Duration::ZERO, stream.output.len() + 1);
    differing(streams, |stream| writes(stream).as_ref() == Some(&stream.output))
}

fn bytes_in(streams: &[Stream]) -> usize {
    streams.iter().map(|stream| stream.output.len()).sum()
}

/// Short streams in random small pieces. Returns how many streams and pieces there were, and how many streams differed.
fn slowly(program: &str, streams: &[Stream]) -> (usize, usize, usize) {
    let (mut random, mut tried, mut pieces) = (Random(2), 0, 0);
    let short = streams.iter().filter(|stream| stream.input.len() <= SHORT);
    let differed = differing(short, |stream| {
        let (mut cut, mut rest) = (Vec::new(), &stream.input[..]);
        while !rest.is_empty() {
            let (piece, behind) = rest.split_at(rest.len().min(random.between(1, LARGEST_PIECE) as usize));
            cut.push(piece.to_vec());
            rest = behind;
        }
        tried += 1;
        pieces += cut.len();
        written(program, cut, PAUSE, stream.output.len() + 1).as_ref() == Some(&stream.output)
    });
    (tried, pieces, differed)
}

/// Each stream command by command. Returns how many commands there were, and how many streams differed.
fn in_turn(program: &str, streams: &[Stream]) -> (usize, usize) {
    let mut commands = 0;
    let differed = differing(streams, |stream| {
        let talk = talk(&stream.input);
        commands += talk.turns.len();
        answers_in_turn(program, &talk) == Some(true)
    });
    (commands, differed)
}

fn main() -> ExitCode {
    let arguments: Vec<String> = std::env::args().collect();
    let [_, program, streams] = &arguments[..] else {
        eprintln!("use: streams PROGRAM STREAMS");
        return ExitCode::from(2);
    };
    let stored = stored(streams);
    let (count, mut differed) = (stored.len(), at_once(program, &stored));
    println!("streams: {count} streams through the command program, {} bytes compared, {differed} streams differed", bytes_in(&stored));
    let mut made: Vec<Stream> = full_tables().into_iter().chain([long(LONG)]).collect();
    made.extend(unknown_bytes());
    let wrong = at_once(program, &made);
    println!("made: {} streams, one of {LONG} commands, {} bytes compared, {wrong} streams differed", made.len(), bytes_in(&made));
    let (tried, pieces, torn) = slowly(program, &stored);
    println!("slowly: {tried} streams in {pieces} pieces, {torn} streams differed");
    let all: Vec<Stream> = stored.into_iter().chain(made).collect();
    let (commands, late) = in_turn(program, &all);
    println!("in turn: {} streams, {commands} commands each answered before the next, {late} streams differed", all.len());
    differed += wrong + torn + late;
    if differed == 0 && count > 0 { ExitCode::SUCCESS } else { ExitCode::FAILURE }
}
