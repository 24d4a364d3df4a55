//! Spoiled memory: random heads, tables and root lists, each call made by the library and by the port on the same store. The answer and every
//! number and word must be the same; a refused call, a question and a lookup must leave everything as it was; and every call must end. Packets of
//! commands, too, are run by both; and so are bursts, whose events are also entered one by one, and writes to register blocks of any 40 bytes, whose
//! commands are also run in the stream. There must be clicks, and questions from tick 0 on that are answered although the tree of ends is spoiled, and
//! bat-times although another tree is.
//!
//! A start and an end look at two trees. One that gets 26, 27 or 28 is also made with each of the two trees in turn changed for one that is sound and has
//! room: the lowest number of the two is the one that it must get, and every pair of different numbers must come about.
//!
//! spoiled [ROUNDS]

mod blocks;
mod bursts;
mod commands;
mod library;
mod made;
mod shapes;

use bursts::{call_of, event_of, of_unknown_kind, of_wider_number, unset_results, EVENT_BYTES, MOST_EVENTS};
use library::{
    burst_by_library, burst_by_port, by_library, by_port, line_by_library, packet_by_library, packet_by_port, read_by_library, reset_by_library,
    write_by_library, write_by_port, Answer, Call, Random, Store, PAGE_WORDS,
};
use port::{Block, BLOCK_BYTES, ENDS, STARTS, TIME};
use shapes::any_tree;
use std::collections::BTreeMap;

/// The pairs of what a start or an end gets of its own tree and of that of time that are all to come about: one of them refuses, or both for different
/// grounds.
const PAIRS: [(u8, u8); 12] =
    [(26, 0), (0, 26), (27, 0), (0, 27), (28, 0), (0, 28), (26, 27), (27, 26), (26, 28), (28, 26), (27, 28), (28, 27)];

/// Packets on each store, bursts, and writes to register blocks, after its calls.
const PACKETS: u64 = 4;
const BURSTS: u64 = 4;
const WRITES: u64 = 8;

/// A call with keys and ticks that the store's own words name, or close to them.
fn call_on(random: &mut Random, store: &Store) -> Call {
    let tick = near_tick(random, store);
    let later = store.head.last.saturating_add(random.below(2));
    match random.below(16) {
        0 if random.one_in(20) => Call::Open,
        0..=5 => Call::Start { tick: *random.pick(&[tick, store.head.last, later]), key: near_key(random, store), weight: random.between(1, 10_000) },
        6..=9 => {
            let number = store.head.passes[random.below(store.head.count_open.min(64)) as usize].number;
            Call::End { tick: *random.pick(&[tick, later, later]), number }
        }
        10 | 11 => Call::Lookup { tree: any_tree(random), t: tick, k: near_key(random, store) },
        _ => {
            let (k, l, u) = (near_key(random, store), near_key(random, store), near_tick(random, store));
            let (k1, k2) = (if random.one_in(4) { 0 } else { k.min(l) }, k.max(l) + 1);
            let (t1, t2) = (tick.min(u), tick.max(u).saturating_add(1));
            if random.one_in(2) { Call::Question { k1, k2, t1, t2 } } else { Call::BatTime { k1, k2, t1, t2 } }
        }
    }
}

/// A packet of such calls, some with a byte that begins no command, some without their last bytes.
fn packet_on(random: &mut Random, store: &Store) -> Vec<u8> {
    let mut packet = Vec::new();
    for _ in 0..random.between(1, 8) {
        packet.extend(match call_on(random, store) {
            Call::Start { tick, key, weight } => commands::start(tick, key, weight),
            Call::End { tick, number } => commands::end(tick, number),
            Call::Question { k1, k2, t1, t2 } => commands::question(k1, k2, t1, t2),
            Call::BatTime { k1, k2, t1, t2 } => commands::bat_time(k1, k2, t1, t2),
            _ if random.one_in(8) => vec![random.word() as u8],
            _ => Vec::new(),
        });
    }
    let cut = random.below(14) as usize;
    packet.truncate(if random.one_in(4) { packet.len().saturating_sub(cut) } else { packet.len() });
    packet
}

/// Whether library and port do the same with a packet, with any room for answers: what they say and write, and the memory that they leave.
fn same_of_packet(random: &mut Random, before: &Store) -> bool {
    let (packet, ended) = (packet_on(random, before), random.one_in(2));
    let mut by_library = vec![0x5a; random.below(120) as usize];
    let mut by_port = by_library.clone();
    let (mut library, mut port) = (before.clone(), before.clone());
    let found = packet_by_library(&mut library, &packet, ended, &mut by_library);
    let wanted = packet_by_port(&mut port, &packet, ended, &mut by_port);
    found == wanted && by_library == by_port && library == port
}

/// What came about in bursts: how many were refused, what their events got, and how many accepted one after another that was refused by the state.
#[derive(Default)]
struct Reached {
    refused: u64,
    results: BTreeMap<u64, u64>,
    accepted_later: u64,
}

/// A burst of such starts and ends, some of a kind that there is not or of a number of no open pass. Some bursts are long, and some without their last bytes.
fn burst_on(random: &mut Random, store: &Store) -> Vec<u8> {
    let size = if random.one_in(40) { random.between(200, MOST_EVENTS as u32 + 2) } else { random.below(12) };
    let mut events = Vec::new();
    while events.len() < EVENT_BYTES * size as usize {
        let Some(event) = event_of(call_on(random, store)) else { continue };
        events.extend(match random.below(16) {
            0 => of_unknown_kind(random, event),
            1 => of_wider_number(random, event),
            _ => event,
        });
    }
    let cut = random.below(EVENT_BYTES as u32) as usize;
    events.truncate(if random.one_in(8) { events.len().saturating_sub(cut) } else { events.len() });
    events
}

/// The events of an accepted burst one by one, by the port: the result words.
fn one_by_one(store: &mut Store, events: &[u8]) -> Vec<u64> {
    let result = |event: &[u8]| {
        let Some(call) = call_of(event) else { return [6, 0] };
        let answer = by_port(store, call);
        let starts = answer.refusal == 0 && matches!(call, Call::Start { .. });
        [answer.refusal as u64, if starts { answer.number as u64 } else { 0 }]
    };
    events.chunks(EVENT_BYTES).flat_map(result).collect()
}

/// Whether library and port do the same with a burst, with any number of result words, and single calls the same as they.
fn same_of_burst(random: &mut Random, before: &Store, reached: &mut Reached) -> bool {
    let events = burst_on(random, before);
    let count = events.len() / EVENT_BYTES;
    let words = if random.one_in(8) { random.below(2 * count as u32 + 1) as usize } else { 2 * count + random.below(3) as usize };
    let refuses = events.len() > EVENT_BYTES * MOST_EVENTS || events.len() % EVENT_BYTES != 0 || words < 2 * count;
    let (mut found, mut wanted) = (unset_results(words), unset_results(words));
    let (mut library, mut port, mut alone) = (before.clone(), before.clone(), before.clone());
    let by_library = burst_by_library(&mut library, &events, &mut found);
    let by_port = burst_by_port(&mut port, &events, &mut wanted);
    let mut results = unset_results(words);
    if !refuses {
        let entered = one_by_one(&mut alone, &events);
        results[..2 * count].copy_from_slice(&entered);
        let first = entered.iter().step_by(2).position(|&refusal| refusal >= 20);
        reached.accepted_later += u64::from(first.is_some_and(|first| entered[2 * first..].iter().step_by(2).any(|&refusal| refusal == 0)));
        entered.iter().step_by(2).for_each(|&refusal| *reached.results.entry(refusal).or_default() += 1);
    }
    reached.refused += u64::from(refuses);
    by_library == by_port && by_library == if refuses { 31 } else { 0 } && found == wanted && found == results && library == port && library == alone
}

/// What came about in register blocks: commands by their status, how many left the flag of 64 open, and writes that run none.
#[derive(Default)]
struct Accessed {
    statuses: BTreeMap<u8, u64>,
    all_open: u64,
    others: u64,
}

/// Any 40 bytes, mostly with the operands of such a call, and the byte that would run it.
fn block_on(random: &mut Random, store: &Store) -> (Block, u8) {
    let mut block = [0; BLOCK_BYTES];
    block.iter_mut().for_each(|byte| *byte = random.word() as u8);
    let command = loop {
        if let Some(bytes) = blocks::command_of(call_on(random, store)) {
            break bytes;
        }
    };
    if !random.one_in(8) {
        block[blocks::OPERANDS..command.len()].copy_from_slice(&command[1..]);
    }
    (block, if random.one_in(16) { random.word() as u8 } else { command[0] })
}

/// What the stream answers to the command in a block, by the port, filled with zeros to the 18 bytes of the longest answer.
fn answer_in_stream(store: &mut Store, command: u8, block: &Block) -> [u8; 18] {
    let length = match command {
        1 | 2 => 9,
        3 | 4 => 13,
        _ => 1,
    };
    let mut answer = [0; 18];
    packet_by_port(store, &[&[command], &block[blocks::OPERANDS..length]].concat(), false, &mut answer);
    answer
}

/// Whether library and port do the same with a write to a register block, a reset of it and reads of it, and the stream the same as they with its
/// command: what stands in the block, and the memory that is left.
fn same_of_block(random: &mut Random, before: &Store, accessed: &mut Accessed) -> bool {
    let (block, command) = block_on(random, before);
    let other = random.one_in(4).then(|| (blocks::other_offset(random), random.word() as u8));
    let (offset, value) = other.unwrap_or((0, command));
    let (mut found, mut wanted) = (block, block);
    let (mut library, mut port, mut stream) = (before.clone(), before.clone(), before.clone());
    write_by_library(&mut library, &mut found, offset, value);
    write_by_port(&mut port, &mut wanted, offset, value);
    let mut same = found == wanted && library == port && line_by_library(&found) == port::block_line(&wanted);
    for at in (0..BLOCK_BYTES + 4).chain([offset, offset.wrapping_add(BLOCK_BYTES)]) {
        same &= read_by_library(&found, at) == port::block_read(&wanted, at);
    }
    if other.is_none() {
        let answer = answer_in_stream(&mut stream, command, &block);
        same &= found[blocks::STATUS] == answer[0] && found[blocks::RESULT..][..17] == answer[1..] && found[blocks::MASK] == block[blocks::MASK];
        *accessed.statuses.entry(answer[0]).or_default() += 1;
        accessed.all_open += u64::from(found[blocks::FLAGS] & 4 != 0);
    }
    accessed.others += u64::from(other.is_some());
    reset_by_library(&mut found);
    same && library == stream && found == [0; BLOCK_BYTES]
}

/// A word of one of the tables.
fn any_word(random: &mut Random, store: &Store, of_row: u32) -> u64 {
    let tree = any_tree(random);
    let (table, pages) = (&store.trees[tree].table, store.head.uses[tree].pages);
    let at = PAGE_WORDS * random.below(pages.min(1_000)) as usize + (4 + 4 * random.below(64) + of_row) as usize;
    table.get(at).copied().unwrap_or(0)
}

fn near_key(random: &mut Random, store: &Store) -> u32 {
    if random.one_in(4) {
        return *random.pick(&[0, 1, 29_999, 15_000, 30_000]);
    }
    let word = any_word(random, store, 0) >> *random.pick(&[0, 16]);
    let key = (word as u16 as u32 + random.below(3)).saturating_sub(1);
    if random.one_in(50) { key } else { key.min(29_999) }
}

fn near_tick(random: &mut Random, store: &Store) -> u32 {
    match random.below(8) {
        0 => *random.pick(&[0, 0, u32::MAX - 1, u32::MAX]),
        1..=5 => store.head.last.saturating_add(random.below(4)).saturating_sub(1),
        _ => ((any_word(random, store, 1) >> *random.pick(&[0, 32])) as u32).saturating_add(random.below(3)).saturating_sub(1),
    }
}

#[derive(Default)]
struct Counts {
    compared: u64,
    differed: u64,
    /// Accepted calls that write, how many of them made pages, and how many ended a pass at its own start tick
    written: u64,
    split: u64,
    clicks: u64,
    /// Questions from tick 0 on that were answered, and get 26 from tick 1 on; bat-times that were answered where the same question gets 26, and the
    /// other way round
    beside_spoiled: u64,
    time_beside_spoiled: u64,
    beside_spoiled_time: u64,
    /// Starts and ends that met 26, 27 or 28, by what they get of their own tree and of that of time
    of_two_trees: BTreeMap<(u8, u8), u64>,
    refusals: BTreeMap<u8, u64>,
    in_bursts: Reached,
    in_blocks: Accessed,
}

impl Counts {
    /// A call that read and was answered.
    fn count_read(&mut self, store: &mut Store, call: Call) {
        self.beside_spoiled += u64::from(is_beside_spoiled(store, call));
        let beside_other = u64::from(is_beside_other(store, call));
        self.time_beside_spoiled += beside_other * u64::from(matches!(call, Call::BatTime { .. }));
        self.beside_spoiled_time += beside_other * u64::from(matches!(call, Call::Question { .. }));
    }

    fn judge(&mut self, same: bool, what: impl FnOnce() -> String) {
        self.compared += 1;
        if !same {
            self.differed += 1;
            if self.differed <= 10 {
                println!("differs: {}", what());
            }
        }
    }
}

/// Whether a call ends a pass at its own start tick.
fn is_click(store: &Store, call: Call) -> bool {
    let Call::End { tick, number } = call else { return false };
    store.head.passes.iter().take(store.head.count_open as usize).any(|pass| pass.number == number && pass.start == tick)
}

/// Whether a question from tick 0 on is answered only because it opens no page of the tree of ends: the same one from tick 1 on gets 26.
fn is_beside_spoiled(store: &mut Store, call: Call) -> bool {
    let Call::Question { k1, k2, t1: 0, t2 } = call else { return false };
    t2 > 1 && by_port(store, Call::Question { k1, k2, t1: 1, t2 }).refusal == 26
}

/// Whether a call of a band is answered although the other one, a bat-time or a question, gets 26.
fn is_beside_other(store: &mut Store, call: Call) -> bool {
    let other = match call {
        Call::Question { k1, k2, t1, t2 } => Call::BatTime { k1, k2, t1, t2 },
        Call::BatTime { k1, k2, t1, t2 } => Call::Question { k1, k2, t1, t2 },
        _ => return false,
    };
    by_port(store, other).refusal == 26
}

/// Pages and roots of a tree that has room for any entry.
const ROOM: usize = 8;

/// What a start or an end gets where a tree is changed for one that was just opened and has room.
fn refusal_with_sound(store: &Store, tree: usize, call: Call) -> u8 {
    let (mut changed, mut opened) = (store.clone(), Store::lent(ROOM, ROOM));
    by_port(&mut opened, Call::Open);
    changed.head.uses[tree] = opened.head.uses[tree];
    changed.trees[tree] = opened.trees[tree].clone();
    by_port(&mut changed, call).refusal
}

/// What a start or an end gets of its own tree, and of that of time.
fn refusals_of_trees(store: &Store, call: Call) -> (u8, u8) {
    let own = if matches!(call, Call::Start { .. }) { STARTS } else { ENDS };
    (refusal_with_sound(store, TIME, call), refusal_with_sound(store, own, call))
}

/// A call by the library and by the port, each on a copy of the store, which becomes what the port leaves.
fn try_call(seed: u64, call: Call, before: &mut Store, [library, port]: [&mut Store; 2], counts: &mut Counts) {
    let found = by_library(library, call);
    let wanted = by_port(port, call);
    *counts.refusals.entry(wanted.refusal).or_default() += 1;
    let writes = wanted.refusal == 0 && call.writes();
    let kept = if writes { library == port } else { library == before && port == before };
    let set = wanted.refusal == 0 || found == Answer::unset(found.refusal);
    let same = found == wanted && kept && set;
    counts.judge(same, || format!("store {seed}, {call:?}: {found:?}, not {wanted:?}; memory as it should be: {kept}"));
    if wanted.refusal == 0 && !writes {
        counts.count_read(port, call);
    }
    if matches!(wanted.refusal, 26..=28) && call.writes() {
        let of_trees @ (own, time) = refusals_of_trees(before, call);
        let lowest = if own == 0 || time != 0 && time < own { time } else { own };
        counts.judge(lowest == wanted.refusal, || format!("store {seed}, {call:?}: {} of two trees that give {own} and {time}", wanted.refusal));
        *counts.of_two_trees.entry(of_trees).or_default() += 1;
    }
    if writes {
        counts.written += 1;
        counts.clicks += u64::from(is_click(before, call));
        counts.split += u64::from(port.head.uses.iter().zip(&before.head.uses).any(|(after, earlier)| after.pages > earlier.pages));
        before.clone_from(port);
    } else if !kept {
        port.clone_from(before);
    }
    if !same {
        library.clone_from(port);
    }
}

/// A store with its calls, its packets, its bursts and its register blocks.
fn try_store(seed: u64, counts: &mut Counts) {
    let mut random = Random(seed);
    let mut before = match random.below(12) {
        0..=3 => made::grown(&mut random),
        4 => made::crowded(&mut random),
        _ => made::random_trees(&mut random),
    };
    for _ in 0..random.below(3) {
        made::spoil(&mut random, &mut before);
    }
    let (mut library, mut port) = (before.clone(), before.clone());
    for _ in 0..40 {
        // A fault in the midst of calls, too.
        if random.one_in(24) {
            made::spoil(&mut random, &mut before);
            library.clone_from(&before);
            port.clone_from(&before);
        }
        let call = call_on(&mut random, &before);
        try_call(seed, call, &mut before, [&mut library, &mut port], counts);
    }
    for _ in 0..PACKETS {
        let same = same_of_packet(&mut random, &before);
        counts.judge(same, || format!("store {seed}, a packet"));
    }
    for _ in 0..BURSTS {
        let same = same_of_burst(&mut random, &before, &mut counts.in_bursts);
        counts.judge(same, || format!("store {seed}, a burst"));
    }
    for _ in 0..WRITES {
        let same = same_of_block(&mut random, &before, &mut counts.in_blocks);
        counts.judge(same, || format!("store {seed}, a write to a register block"));
    }
}

fn listed<T: std::fmt::Display>(times: impl Iterator<Item = (T, u64)>) -> String {
    times.map(|(refusal, times)| format!("{refusal} × {times}")).collect::<Vec<_>>().join(", ")
}

fn main() {
    let rounds: u64 = std::env::args().nth(1).map_or(1, |rounds| rounds.parse().expect("ROUNDS is a number"));
    let mut counts = Counts::default();
    let stores = 12_000 * rounds;
    for seed in 0..stores {
        try_store(seed, &mut counts);
    }
    let Counts { compared, differed, written, split, clicks, refusals, in_bursts, in_blocks, of_two_trees, .. } = counts;
    let beside = [counts.beside_spoiled, counts.time_beside_spoiled, counts.beside_spoiled_time];
    println!(
        "spoiled: {} bursts, {} refused with 31, {} with an event accepted after one that the state refused; events by what they got: {}",
        BURSTS * stores, in_bursts.refused, in_bursts.accepted_later, listed(in_bursts.results.into_iter())
    );
    let accepted = in_blocks.statuses.get(&0).copied().unwrap_or(0);
    println!(
        "spoiled: {} writes to register blocks, {} of them of no command; commands by their status: {}; {} left with 64 open",
        WRITES * stores, in_blocks.others, listed(in_blocks.statuses.into_iter()), in_blocks.all_open
    );
    let different: Vec<(String, u64)> = PAIRS.iter().map(|pair| (format!("{} and {}", pair.0, pair.1), of_two_trees.get(pair).copied().unwrap_or(0))).collect();
    let all_pairs = different.iter().all(|pair| pair.1 > 0);
    println!("spoiled: starts and ends refused by their own tree and by that of time: {}", listed(different.into_iter()));
    println!(
        "spoiled: {stores} stores, {written} accepted writes, {split} of them with splits and {clicks} of them clicks; {} questions from tick 0 answered \
         beside a spoiled tree of ends, {} bat-times beside a spoiled tree of starts or ends, {} questions beside one of time; refusals {}, {} packets: \
         {compared} compared, {differed} differed",
        beside[0], beside[1], beside[2], listed(refusals.into_iter().filter(|seen| seen.0 != 0)), PACKETS * stores
    );
    let all_reached = [in_bursts.accepted_later, accepted, in_blocks.all_open, in_blocks.others, clicks].iter().chain(&beside).all(|&times| times > 0) && all_pairs;
    std::process::exit(i32::from(differed != 0 || !all_reached));
}
