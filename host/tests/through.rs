//! A command program that is spoken to: all at once, slowly, or command by command.

use crate::commands::Talk;
use std::io::{Read, Write};
use std::process::{Child, ChildStdin, ChildStdout, Command, Stdio};
use std::time::Duration;

/// A program that runs, and is ended if it has not ended by itself.
struct Running(Child);

impl Running {
    fn start(program: &str) -> Option<(Running, ChildStdin, ChildStdout)> {
        let mut child = Command::new(program).stdin(Stdio::piped()).stdout(Stdio::piped()).spawn().ok()?;
        let (stdin, stdout) = (child.stdin.take()?, child.stdout.take()?);
        Some((Running(child), stdin, stdout))
    }

    fn ended_well(&mut self) -> bool {
        self.0.wait().is_ok_and(|status| status.success())
    }
}

impl Drop for Running {
    fn drop(&mut self) {
        // One that has ended cannot be ended again, which is no fault.
        drop(self.0.kill());
        drop(self.0.wait());
    }
}

/// What the program writes for an input that comes in pieces, or nothing if it fails. A program that writes more bytes than it may is ended,
/// and fails.
pub fn written(program: &str, pieces: Vec<Vec<u8>>, pause: Duration, most: usize) -> Option<Vec<u8>> {
    let (mut running, mut stdin, stdout) = Running::start(program)?;
    let writer = std::thread::spawn(move || {
        for piece in pieces {
            // The program may stop reading before the input ends, so a write that fails is no fault.
            if stdin.write_all(&piece).is_err() {
                return;
            }
            if !pause.is_zero() {
                std::thread::sleep(pause);
            }
        }
    });
    let mut output = Vec::new();
    let read = stdout.take(most as u64).read_to_end(&mut output);
    let well = output.len() < most && running.ended_well();
    drop(running);
    writer.join().ok()?;
    (read.is_ok() && well).then_some(output)
}

/// Whether the program answers each command before anything more comes. Every second command comes in two parts, its first byte and the rest.
/// While a run that is over ends, more could still come: nothing more is read. Nothing where the program fails.
pub fn answers_in_turn(program: &str, talk: &Talk) -> Option<bool> {
    let (mut running, mut stdin, mut stdout) = Running::start(program)?;
    for (place, (command, wanted)) in talk.turns.iter().enumerate() {
        let (first, rest) = command.split_at(place % 2);
        stdin.write_all(first).ok()?;
        stdin.write_all(rest).ok()?;
        let mut heard = vec![0; wanted.len()];
        stdout.read_exact(&mut heard).ok()?;
        if heard != *wanted {
            return Some(false);
        }
    }
    let still_open = talk.over.then_some(stdin);
    let mut heard = Vec::new();
    stdout.take(talk.at_end.len() as u64 + 1).read_to_end(&mut heard).ok()?;
    let same = heard == talk.at_end && running.ended_well();
    drop(still_open);
    Some(same)
}
