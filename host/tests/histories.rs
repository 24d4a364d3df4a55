//! Random histories against the pass book of document 01 (book.rs). Every answer of the library is compared with the book's; of the answers
//! the book is told only whether one was 27 or 28.
//!
//! Beside the book: 27 and 28 come exactly if the pages or the root entry lack, which a copy of the store with more room shows; a refused
//! call changes nothing; pages opened are the pages on the paths; and the pages and the height of each tree keep to their bounds.
//!
//! Among the calls are bursts, some of them to be refused. The book gets their events one by one, and so does a second store, by single calls: what
//! the events get, and what the burst leaves, must be the same.
//!
//! Among them are accesses to a register block as well, which follow a plain model (blocks.rs). A command through the block goes to the book as the
//! call that it is, and to the second store by that call.
//!
//! A pass lives at its end tick too. So there are clicks among the passes, ticks with more starts and ends than passes may be open, and questions
//! that one tick decides (lives.rs). Bat-times are compared as the exact numbers that they are: small ones, ones of more than 51 bits, and ones of every way
//! in which a life and an interval meet; and 27 and 28 come of one tree alone, of the other, and of both (times.rs). The test fails where something
//! of this, of bursts or of register blocks, did not come about.
//!
//! histories [ROUNDS]

mod blocks;
mod book;
mod bursts;
mod commands;
mod library;
mod lives;
mod shapes;
mod times;
mod trees;

use blocks::{answer_of, command_of, other_offset, unknown_byte, Accessed, Model, FLAGS, MASK, OPERANDS};
use book::Book;
use bursts::{call_of, event_of, of_unknown_kind, of_wider_number, unset_results, EVENT_BYTES, MOST_EVENTS};
use library::{
    burst_by_library, by_library, line_by_library, read_by_library, reset_by_library, write_by_library, Answer, Call, Random, Slices, Store, PAGE_WORDS,
};
use lives::{Crowd, Lives};
use port::{Block, Pass, BLOCK_BYTES, ENDS, STARTS, TIME};
use shapes::{Keys, Mix, Pace, Shape};
use std::collections::BTreeMap;
use times::Times;
use trees::{is_right, lacks, put_pages, Tree};

/// How many calls there are to one that is a burst; bursts to one that is to be refused; events to one that has a kind that there is not, or, where it is
/// an end, the number of an open pass only in its low bytes.
const CALLS_A_BURST: u32 = 40;
const BURSTS_A_REFUSED_ONE: u32 = 8;
const EVENTS_AN_UNKNOWN_ONE: u32 = 40;

/// How many calls there are to one that is an access to the register block, and commands through it to one that has a byte that begins none, and to one
/// that is run again on the operands that stand there.
const CALLS_AN_ACCESS: u32 = 8;
const COMMANDS_AN_UNKNOWN_ONE: u32 = 20;

/// What came about in bursts.
#[derive(Default)]
struct Reached {
    bursts: u64,
    empty: u64,
    full: u64,
    events: u64,
    refused: u64,
    unknown: u64,
    /// Bursts in which an event got 27, or 28, and a later one was accepted
    after_27: u64,
    after_28: u64,
    /// Bursts refused for each ground of 31: too long, cut inside an event, too few result words
    too_long: u64,
    cut: u64,
    short: u64,
}

impl Reached {
    /// An accepted burst of which these are the results, a refusal and a number each.
    fn count(&mut self, results: &[[u64; 2]]) {
        let accepted_after = |refusal: u64| {
            let first = results.iter().position(|result| result[0] == refusal);
            u64::from(first.is_some_and(|first| results[first..].iter().any(|result| result[0] == 0)))
        };
        self.bursts += 1;
        self.empty += u64::from(results.is_empty());
        self.full += u64::from(results.len() == MOST_EVENTS);
        self.events += results.len() as u64;
        self.refused += results.iter().filter(|result| result[0] != 0).count() as u64;
        self.unknown += results.iter().filter(|result| result[0] == 6).count() as u64;
        self.after_27 += accepted_after(27);
        self.after_28 += accepted_after(28);
    }

    /// Each with its name. One that never came about is a test that was not made.
    fn named(&self) -> [(u64, &'static str); 11] {
        [
            (self.bursts, "bursts"),
            (self.empty, "empty"),
            (self.full, "of 256 events"),
            (self.events, "events"),
            (self.refused, "of them refused"),
            (self.unknown, "of unknown kind"),
            (self.after_27, "bursts with an event accepted after a 27"),
            (self.after_28, "after a 28"),
            (self.too_long, "refused with 31 as too long"),
            (self.cut, "as cut inside an event"),
            (self.short, "for want of a result word"),
        ]
    }
}

#[derive(Default)]
struct Counts {
    compared: u64,
    differed: u64,
    refusals: BTreeMap<u8, u64>,
    reached: Reached,
    accessed: Accessed,
    lives: Lives,
    times: Times,
    highest: u32,
}

impl Counts {
    fn judge(&mut self, same: bool, seed: u64, what: impl FnOnce() -> String) {
        self.compared += 1;
        if !same {
            self.differed += 1;
            if self.differed <= 10 {
                println!("differs: history {seed}, {}", what());
            }
        }
    }
}

/// A history on a store. Where `whole`, the store is compared word for word after a refusal and after a call that only reads, after a burst, and after
/// an access to the register block.
struct History {
    seed: u64,
    random: Random,
    shape: Shape,
    book: Book,
    store: Store,
    /// A store like it, on which all is done by single calls
    single: Store,
    whole: bool,
    crowd: Crowd,
    block: Block,
    model: Model,
}

impl History {
    /// A number of calls, of which the first is an opening; each event of a burst is one of them.
    fn run(seed: u64, shape: Shape, store: Store, calls: u32, whole: bool, counts: &mut Counts) {
        let (book, crowd, single) = (Book::default(), Crowd::default(), store.clone());
        let (block, model) = ([0xa5; BLOCK_BYTES], Model::default());
        let mut history = History { seed, random: Random(!seed), shape, book, store, single, whole, crowd, block, model };
        history.call(Call::Open, counts);
        history.reset(counts);
        let mut made = 1;
        while made < calls {
            made += 1;
            if history.random.one_in(CALLS_A_BURST) {
                made += history.burst(counts);
                continue;
            }
            if history.random.one_in(CALLS_AN_ACCESS) {
                history.access(counts);
                continue;
            }
            let anew = whole && history.random.one_in(800);
            let call = if anew { Call::Open } else { history.next_call() };
            history.call(call, counts);
        }
        history.end(counts);
    }

    /// The next call by what the book knows.
    fn next_call(&mut self) -> Call {
        let book = &self.book;
        self.shape.call(&mut self.random, book.last, book.passes.len() as u32, &book.open)
    }

    fn call(&mut self, call: Call, counts: &mut Counts) {
        let before = self.whole.then(|| self.store.clone());
        let found = by_library(&mut self.store, call);
        *counts.refusals.entry(found.refusal).or_default() += 1;
        let mut wanted = self.by_book(call, found.refusal, counts);
        if wanted.refusal == 0 {
            put_pages(&self.store, call, &mut wanted);
        }
        let kept = if call.writes() && wanted.refusal == 0 {
            by_library(&mut self.single, call);
            self.head_is_of_book()
        } else {
            before.is_none_or(|before| before == self.store)
        };
        let exact = self.lacks_room_if_said(call, found.refusal, counts);
        counts.judge(found == wanted && kept && exact, self.seed, || format!("{call:?}: {found:?}, not {wanted:?}"));
    }

    /// What the book answers. It is told a 27 or a 28.
    fn by_book(&mut self, call: Call, told: u8, counts: &mut Counts) -> Answer {
        match (self.book.refusal(call), told) {
            (0, refusal @ (27 | 28)) => Answer::unset(refusal),
            (0, _) => {
                counts.lives.count(call, &self.book, &self.store, &mut self.crowd);
                let answer = self.book.turn(call);
                counts.times.count(call, answer.time.total, &self.book, &self.store);
                answer
            }
            (refusal, _) => Answer::unset(refusal),
        }
    }

    /// 27 and 28 are right. A copy of a large store takes long, so that not every one is made.
    fn lacks_room_if_said(&mut self, call: Call, refusal: u8, counts: &mut Counts) -> bool {
        let tried = matches!(refusal, 27 | 28) && (self.whole || self.random.one_in(8));
        if !tried {
            return true;
        }
        let lacks = lacks(&self.single, call);
        if let Some(lacks) = lacks {
            counts.times.count_lack(refusal, lacks);
        }
        is_right(lacks, refusal)
    }

    /// A burst that is refused or not. Returns how many events were entered.
    fn burst(&mut self, counts: &mut Counts) -> u32 {
        if self.random.one_in(BURSTS_A_REFUSED_ONE) {
            self.refused_burst(counts);
            return 0;
        }
        let most = *self.random.pick(&[0, 1, 2, 5, 5, 20, 20, 60, MOST_EVENTS as u32]);
        let size = if self.random.one_in(3) { most } else { self.random.between(0, most) };
        self.entered_burst(size, counts);
        size
    }

    /// An event, drawn by what the second store knows: it is told the events of a burst before the book is.
    fn draw_event(&mut self) -> Vec<u8> {
        let (head, open) = (&self.single.head, self.single.open_numbers());
        let event = loop {
            let call = self.shape.call(&mut self.random, head.last, head.started, &open);
            if let Some(event) = event_of(call) {
                break event;
            }
        };
        match self.random.below(EVENTS_AN_UNKNOWN_ONE) {
            0 => of_unknown_kind(&mut self.random, event),
            1 => of_wider_number(&mut self.random, event),
            _ => event,
        }
    }

    /// An event by a single call on the second store: the two result words that it must get.
    fn enter_alone(&mut self, event: &[u8], counts: &mut Counts) -> [u64; 2] {
        let Some(call) = call_of(event) else { return [6, 0] };
        let answer = by_library(&mut self.single, call);
        let exact = self.lacks_room_if_said(call, answer.refusal, counts);
        counts.judge(exact, self.seed, || format!("{call:?} in a burst: {} with room", answer.refusal));
        let starts = answer.refusal == 0 && matches!(call, Call::Start { .. });
        [answer.refusal as u64, if starts { answer.number as u64 } else { 0 }]
    }

    /// What an event gets by the book, which is told whether the burst said 27 or 28 to it.
    fn result_by_book(&mut self, event: &[u8], told: u64, counts: &mut Counts) -> [u64; 2] {
        let Some(call) = call_of(event) else { return [6, 0] };
        let answer = self.by_book(call, told.min(255) as u8, counts);
        let starts = answer.refusal == 0 && matches!(call, Call::Start { .. });
        [answer.refusal as u64, if starts { answer.number as u64 } else { 0 }]
    }

    fn entered_burst(&mut self, size: u32, counts: &mut Counts) {
        let (mut events, mut alone) = (Vec::new(), Vec::new());
        for _ in 0..size {
            let event = self.draw_event();
            alone.push(self.enter_alone(&event, counts));
            events.extend(event);
        }
        let mut results = unset_results(2 * size as usize + self.random.below(4) as usize);
        let refusal = burst_by_library(&mut self.store, &events, &mut results);
        let (found, behind) = results.split_at(2 * size as usize);
        let clicks = counts.lives.clicks();
        for (at, (event, result)) in events.chunks(EVENT_BYTES).zip(found.chunks(2)).enumerate() {
            let by_book = self.result_by_book(event, result[0], counts);
            let same = result == by_book && result == alone[at];
            counts.judge(same, self.seed, || format!("event {at} of {size}, {event:?}: {result:?}, not {by_book:?}, alone {:?}", alone[at]));
        }
        let unset = unset_results(results.len());
        let kept = refusal == 0 && behind == &unset[2 * size as usize..] && self.is_as_single() && self.head_is_of_book();
        counts.judge(kept, self.seed, || format!("a burst of {size}: refusal {refusal}, and what it leaves"));
        counts.reached.count(&alone);
        counts.lives.in_bursts += counts.lives.clicks() - clicks;
    }

    /// A burst that meets one ground of 31. Its events would be accepted as often as any.
    fn refused_burst(&mut self, counts: &mut Counts) {
        let ground = self.random.below(3);
        let size = if ground == 0 { MOST_EVENTS as u32 + 1 + self.random.below(60) } else { self.random.between(1, MOST_EVENTS as u32) };
        let mut events: Vec<u8> = (0..size).flat_map(|_| self.draw_event()).collect();
        let mut words = 2 * size + self.random.below(3);
        match ground {
            0 => counts.reached.too_long += 1,
            1 => {
                events.truncate(events.len() - self.random.between(1, EVENT_BYTES as u32 - 1) as usize);
                counts.reached.cut += 1;
            }
            _ => {
                words = if self.random.one_in(2) { 2 * size - 1 } else { self.random.below(2 * size) };
                counts.reached.short += 1;
            }
        }
        let mut results = unset_results(words as usize);
        let refusal = burst_by_library(&mut self.store, &events, &mut results);
        *counts.refusals.entry(refusal).or_default() += 1;
        let kept = results == unset_results(words as usize) && self.is_as_single();
        counts.judge(refusal == 31 && kept, self.seed, || format!("a burst of {} bytes and {words} words: {refusal}, not 31", events.len()));
    }

    /// Something that the radio side does with the register block: mostly a command.
    fn access(&mut self, counts: &mut Counts) {
        let value = self.random.word() as u8;
        match self.random.below(16) {
            0..=9 => self.command(counts),
            10 | 11 => {
                counts.accessed.cleared += u64::from(self.model.bytes()[FLAGS] & value != 0);
                self.write_register(FLAGS, value, counts);
            }
            12 | 13 => {
                counts.accessed.masked += 1;
                self.write_register(MASK, value, counts);
            }
            14 if self.random.one_in(4) => self.reset(counts),
            _ => {
                let offset = other_offset(&mut self.random);
                counts.accessed.ignored += u64::from(offset == 13 || offset > 15);
                self.write_register(offset, value, counts);
            }
        }
    }

    fn reset(&mut self, counts: &mut Counts) {
        reset_by_library(&mut self.block);
        self.model = Model::default();
        counts.accessed.resets += 1;
        self.see_block("a reset", counts);
    }

    fn write_register(&mut self, offset: usize, value: u8, counts: &mut Counts) {
        write_by_library(&mut self.store, &mut self.block, offset, value);
        self.model.write(offset, value);
        self.see_block("a write", counts);
    }

    /// A command through the block. Operands that have to change are written, in any order, and now and then one that has not; then the command byte.
    fn command(&mut self, counts: &mut Counts) {
        let again = (1..=4).contains(&self.model.command) && self.random.one_in(COMMANDS_AN_UNKNOWN_ONE);
        let mut byte = self.model.command;
        if !again {
            let bytes = loop {
                let call = self.next_call();
                if let Some(bytes) = command_of(call) {
                    break bytes;
                }
            };
            byte = if self.random.one_in(COMMANDS_AN_UNKNOWN_ONE) { unknown_byte(&mut self.random) } else { bytes[0] };
            let mut places: Vec<usize> = (0..bytes.len() - 1).collect();
            while !places.is_empty() {
                let place = places.swap_remove(self.random.below(places.len() as u32) as usize);
                if self.model.operands[place] != bytes[1 + place] || self.random.one_in(8) {
                    self.write_register(OPERANDS + place, bytes[1 + place], counts);
                }
            }
        }
        counts.accessed.again += u64::from(again);
        self.run_command(byte, counts);
    }

    /// Writes a command byte. What the book answers to the call that it is must stand in the block.
    fn run_command(&mut self, byte: u8, counts: &mut Counts) {
        write_by_library(&mut self.store, &mut self.block, 0, byte);
        let status = self.block[blocks::STATUS];
        let call = blocks::call_of(byte, &self.model.operands);
        let answer = call.map_or(vec![6], |call| self.answer_by_book(call, status, counts));
        let open = self.book.open.len();
        self.model.run(byte, &answer, open);
        counts.accessed.count(call, &answer, open);
        let kept = self.head_is_of_book();
        counts.judge(kept, self.seed, || format!("command {byte} through the block, {call:?}: the head that it leaves"));
        self.see_block("a command", counts);
    }

    /// The answer of a call by the book, which is told a 27 or a 28; the second store gets the same call.
    fn answer_by_book(&mut self, call: Call, told: u8, counts: &mut Counts) -> Vec<u8> {
        let exact = self.lacks_room_if_said(call, told, counts);
        counts.judge(exact, self.seed, || format!("{call:?} through the block: {told} with room"));
        let alone = by_library(&mut self.single, call);
        let mut wanted = self.by_book(call, told, counts);
        if wanted.refusal == 0 {
            put_pages(&self.single, call, &mut wanted);
        }
        counts.judge(alone == wanted, self.seed, || format!("{call:?} beside the block: {alone:?}, not {wanted:?}"));
        answer_of(call, &wanted)
    }

    /// The block is as the model, what is read of it and its line, and the store is as single calls leave it.
    fn see_block(&mut self, what: &str, counts: &mut Counts) {
        let (wanted, line) = (self.model.bytes(), line_by_library(&self.block));
        let offset = self.random.below(48) as usize;
        let read = read_by_library(&self.block, offset);
        counts.accessed.see_line(line);
        let same = self.block == wanted && line == self.model.line() && read == wanted.get(offset).copied().unwrap_or(0) && self.is_as_single();
        counts.judge(same, self.seed, || format!("{what}: {:?}, not {wanted:?}, line {line}, {read} at {offset}", self.block));
    }

    /// Whether the store is as single calls leave it. Of a large one only the head is looked at, until the history ends.
    fn is_as_single(&self) -> bool {
        let (store, single) = (&self.store, &self.single);
        if self.whole { store == single } else { store.head == single.head }
    }

    /// The head has the book's last tick, number started and open passes.
    fn head_is_of_book(&self) -> bool {
        let (head, book) = (&self.store.head, &self.book);
        let open = book.open.iter().map(|&number| {
            let pass = &book.passes[number as usize];
            Pass { number, key: pass.key, weight: pass.weight, start: pass.start }
        });
        (head.last, head.started, head.count_open) == (book.last, book.passes.len() as u32, book.open.len() as u32)
            && head.passes.iter().copied().eq(open.chain(std::iter::repeat(Pass::default())).take(head.passes.len()))
    }

    /// The bounds of each tree, by the keys of its own points, and the whole memory.
    fn end(&self, counts: &mut Counts) {
        let started: Vec<u32> = self.book.passes.iter().map(|pass| pass.key).collect();
        let ended: Vec<u32> = self.book.passes.iter().filter(|pass| pass.end.is_some()).map(|pass| pass.key).collect();
        let both = [&started[..], &ended[..]].concat();
        for (tree, keys) in [(STARTS, &started), (ENDS, &ended), (TIME, &both)] {
            let of_store = Tree::of(&self.store, tree);
            counts.judge(of_store.keeps_bounds(keys), self.seed, || format!("bounds of tree {tree}"));
            counts.highest = counts.highest.max(of_store.height());
        }
        counts.judge(self.store == self.single, self.seed, || "the store that single calls leave".to_string());
    }
}

/// A history of any shape over tables of any size up to 400 pages.
fn any_history(seed: u64, counts: &mut Counts) {
    let mut random = Random(seed);
    let pages = *random.pick(&[1, 2, 3, 4, 5, 6, 8, 10, 10, 20, 40, 100, 400]);
    let roots = if random.one_in(3) { random.between(1, 1 + pages / 3) } else { pages };
    let mut store = Store::lent(pages as usize, roots as usize);
    // The tree of time takes as many points as both others together. In some stores it has more pages than they have, so that one of them runs full first.
    if random.one_in(2) {
        let time_pages = *random.pick(&[2 * pages, 3 * pages]);
        let time_roots = if random.one_in(3) { random.between(1, 1 + time_pages / 3) } else { time_pages };
        store.trees[TIME] = Slices::lent(time_pages as usize, time_roots as usize);
    }
    for Slices { table, .. } in &mut store.trees {
        let more = random.below(PAGE_WORDS as u32) as usize;
        table.resize(table.len() + more, 0);
    }
    let calls = 100 + 20 * pages.min(100) + random.below(400);
    History::run(seed, Shape::any(&mut random), store, calls, pages <= 10, counts);
}

/// A long history over tables that never run full, so that trees grow three pages high and more.
fn long_history(seed: u64, keys: Keys, pace: Pace, mix: Mix, calls: u32, counts: &mut Counts) {
    let pages = 8 + 4 * (calls as usize + MOST_EVENTS) / 9;
    History::run(seed, Shape::new(keys, pace, mix), Store::lent(pages, pages), calls, false, counts);
}

fn main() {
    let rounds: u64 = std::env::args().nth(1).map_or(1, |rounds| rounds.parse().expect("ROUNDS is a number"));
    let mut counts = Counts::default();
    let histories = 1_700 * rounds;
    for seed in 0..histories {
        any_history(seed, &mut counts);
    }
    for round in 0..rounds {
        let mix = Mix { starts: 50, ends: 49, clicks: 10, together: 64 };
        long_history(1_000_000 + round, Keys::Uniform, Pace::Slow, mix, 60_000, &mut counts);
        long_history(2_000_000 + round, Keys::Strides, Pace::Swarms, mix, 40_000, &mut counts);
        long_history(3_000_000 + round, Keys::Bands, Pace::Slow, mix, 40_000, &mut counts);
        // A tree grows four pages high where keys rise. So they do in the tree of ends if each pass ends before the next one starts. The tree of time has
        // its pages full of rows that ended, and stays lower, unless most passes are clicks, whose end alters the row that their start made.
        let in_turn = Mix { starts: 49, ends: 49, clicks: 90, together: 1 };
        long_history(4_000_000 + round, Keys::Rising, Pace::Jumps, in_turn, 58_000, &mut counts);
    }
    let (in_bursts, in_blocks, of_lives, of_times) = (counts.reached.named(), counts.accessed.named(), counts.lives.named(), counts.times.named());
    for reached in [&in_bursts[..], &in_blocks[..], &of_lives[..], &of_times[..]] {
        let named: Vec<String> = reached.iter().map(|(times, name)| format!("{times} {name}")).collect();
        println!("histories: {}", named.join(", "));
    }
    let seen: Vec<String> = counts.refusals.iter().filter(|seen| *seen.0 != 0).map(|(refusal, times)| format!("{refusal} × {times}")).collect();
    println!(
        "histories: {} histories, trees up to {} pages high, refusals {}: {} compared, {} differed",
        histories + 4 * rounds,
        counts.highest,
        seen.join(", "),
        counts.compared,
        counts.differed
    );
    let all_reached = in_bursts.iter().chain(&in_blocks).chain(&of_lives).chain(&of_times).all(|&(times, _)| times > 0);
    std::process::exit(i32::from(counts.differed != 0 || !all_reached));
}
