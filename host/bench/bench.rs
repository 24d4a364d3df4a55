//! How fast the library is, beside the port and a plain list of passes.
//!
//! The contenders make the same calls several times over, in turn. Of a call the best of its times counts, so that what else the machine does
//! stays out of the figures; the mean and the slowest are over these. The time of reading the clock is subtracted. All of them must answer what
//! the pass book answers, whose time is not taken.
//!
//! bench [LARGEST [RUNS]]: how many passes the largest store has; how often each contender makes the calls, 3 times where not said

#[path = "../tests/book.rs"]
mod book;
#[path = "../tests/commands.rs"]
mod commands;
#[path = "../tests/library.rs"]
mod library;
mod list;
mod workload;

use book::Book;
use library::{
    burst_by_library, burst_by_port, by_library, by_port, packet_by_library, packet_by_port, write_by_library, write_by_port, Answer, Call, Slices,
    Store,
};
use list::List;
use port::{Block, Fed, Head, BLOCK_BYTES, ENDS, STARTS, TIME};
use std::hint::black_box;
use std::time::Instant;
use workload::{questions_from_zero, questions_past, questions_today, season, Question, SHAPES};

const SIZES: [u32; 4] = [5_000, 50_000, 200_000, 1_000_000];
const QUESTIONS: usize = 2_000;

/// Starts and ends of a packet and of a burst, and the passes of the season that is told in them.
const TOGETHER: usize = 256;
const TOGETHER_PASSES: u32 = 5_000;

/// Something that takes the calls of a detector.
trait Contender {
    fn open(&mut self);
    fn start(&mut self, tick: u32, key: u32, weight: u32) -> u32;
    fn end(&mut self, tick: u32, number: u32);
    /// Count, weight sum, pages opened
    fn question(&mut self, question: Question) -> (u64, u64, u32);
    /// Total, pages opened
    fn bat_time(&mut self, question: Question) -> (u64, u32);
}

struct Library(Store);
struct Port(Store);

/// Both answer through the same store; only who makes the call differs.
macro_rules! contender_by {
    ($contender:ident, $made_by:ident) => {
        impl Contender for $contender {
            fn open(&mut self) {
                accepted($made_by(&mut self.0, Call::Open));
            }
            #[inline]
            fn start(&mut self, tick: u32, key: u32, weight: u32) -> u32 {
                accepted($made_by(&mut self.0, Call::Start { tick, key, weight })).number
            }
            #[inline]
            fn end(&mut self, tick: u32, number: u32) {
                accepted($made_by(&mut self.0, Call::End { tick, number }));
            }
            #[inline]
            fn question(&mut self, (k1, k2, t1, t2): Question) -> (u64, u64, u32) {
                let totals = accepted($made_by(&mut self.0, Call::Question { k1, k2, t1, t2 })).totals;
                (totals.count, totals.sum, totals.pages)
            }
            #[inline]
            fn bat_time(&mut self, (k1, k2, t1, t2): Question) -> (u64, u32) {
                let time = accepted($made_by(&mut self.0, Call::BatTime { k1, k2, t1, t2 })).time;
                (time.total, time.pages)
            }
        }
    };
}

contender_by!(Library, by_library);
contender_by!(Port, by_port);

impl Contender for List {
    fn open(&mut self) {
        self.clear();
    }
    #[inline]
    fn start(&mut self, tick: u32, key: u32, weight: u32) -> u32 {
        List::start(self, tick, key, weight)
    }
    #[inline]
    fn end(&mut self, tick: u32, number: u32) {
        List::end(self, tick, number)
    }
    #[inline]
    fn question(&mut self, (k1, k2, t1, t2): Question) -> (u64, u64, u32) {
        let (count, sum) = List::question(self, k1, k2, t1, t2);
        (count, sum, 0)
    }
    #[inline]
    fn bat_time(&mut self, (k1, k2, t1, t2): Question) -> (u64, u32) {
        (List::bat_time(self, k1, k2, t1, t2), 0)
    }
}

#[inline]
fn accepted(answer: Answer) -> Answer {
    assert!(answer.refusal == 0, "a call of the benchmark was refused: {}", answer.refusal);
    answer
}

/// Mean and slowest, in nanoseconds.
#[derive(Clone, Copy)]
struct Time {
    mean: f64,
    slowest: f64,
}

impl Time {
    fn of(times: &[u32], clock: f64) -> Time {
        let less = |time: u32| (time as f64 - clock).max(0.0);
        let slowest = times.iter().copied().max().map_or(0.0, less);
        Time { mean: times.iter().copied().map(less).sum::<f64>() / times.len().max(1) as f64, slowest }
    }
}

/// Kinds of questions: on today's ticks, on past ticks, and from tick 0 on, which look up no ends. Each is also asked as a bat-time.
const KINDS: usize = 3;
const READS: usize = 2 * KINDS;
const OPERATIONS: [&str; 2 + READS] =
    ["start", "end", "question today", "question past", "question from 0", "bat-time today", "bat-time past", "bat-time from 0"];

/// Questions of each kind.
type Asked<'a> = [&'a [Question]; KINDS];

/// What a question answers, count and weight sum; or what a bat-time does, its total and nothing.
type Answered = (u64, u64);

/// What one contender took and answered.
struct Figures {
    /// The best time of each start, each end, and each question and bat-time of each kind
    best: [Vec<u32>; 2 + READS],
    answers: Vec<Answered>,
    /// Pages opened by all questions and by all bat-times of each kind
    pages: [u64; READS],
}

#[inline]
fn take_time(best: &mut u32, work: impl FnOnce()) {
    let begin = Instant::now();
    work();
    *best = (*best).min(begin.elapsed().as_nanos() as u32);
}

/// What reading the clock takes by itself.
fn clock_time() -> f64 {
    let mut times = vec![u32::MAX; 10_000];
    for time in &mut times {
        take_time(time, || ());
    }
    times.sort_unstable();
    times[times.len() / 2] as f64
}

impl Figures {
    fn new(starts: usize, ends: usize, questions: usize) -> Figures {
        let counts: [usize; 2 + READS] = std::array::from_fn(|at| [starts, ends, questions][at.min(2)]);
        Figures { best: counts.map(|count| vec![u32::MAX; count]), answers: Vec::new(), pages: [0; READS] }
    }

    fn times(&self, clock: f64) -> [Time; 2 + READS] {
        self.best.each_ref().map(|best| Time::of(best, clock))
    }

    /// Makes all calls once.
    fn run(&mut self, contender: &mut impl Contender, calls: &[Call], questions: Asked) {
        let [starts, ends, asked @ ..] = &mut self.best;
        let (mut starts, mut ends) = (starts.iter_mut(), ends.iter_mut());
        contender.open();
        for &call in calls {
            match call {
                Call::Start { tick, key, weight } => take_time(starts.next().unwrap(), || {
                    black_box(contender.start(tick, key, weight));
                }),
                Call::End { tick, number } => take_time(ends.next().unwrap(), || contender.end(tick, number)),
                _ => (),
            }
        }
        self.answers.clear();
        self.pages = [0; READS];
        for (at, times) in asked.iter_mut().enumerate() {
            for (&question, time) in questions[at % KINDS].iter().zip(times) {
                let mut answer = (0, 0, 0);
                if at < KINDS {
                    take_time(time, || answer = black_box(contender.question(black_box(question))));
                } else {
                    let mut answered = (0, 0);
                    take_time(time, || answered = black_box(contender.bat_time(black_box(question))));
                    answer = (answered.0, 0, answered.1);
                }
                self.answers.push((answer.0, answer.1));
                self.pages[at] += answer.2 as u64;
            }
        }
    }
}

fn shown(nanoseconds: f64) -> String {
    match nanoseconds {
        n if n < 1_000.0 => format!("{n:.0} ns"),
        n if n < 1_000_000.0 => format!("{:.2} us", n / 1_000.0),
        n => format!("{:.2} ms", n / 1_000_000.0),
    }
}

/// An empty store with as many pages as its trees may use, which is at most 4 + 4n/9 for n points. The tree of time takes a start and an end of each pass.
fn roomy_store(passes: u32) -> Store {
    let pages = |points: u32| 4 + 4 * points as usize / 9;
    let mut store = Store::lent(pages(passes), pages(passes));
    store.trees[TIME] = Slices::lent(pages(2 * passes), pages(2 * passes));
    store
}

/// What the pass book answers to the questions after the calls, and then to the bat-times.
fn by_book(calls: &[Call], questions: Asked) -> Vec<Answered> {
    let mut book = Book::default();
    let mut turn = |call| {
        assert!(book.refusal(call) == 0, "the book refuses a call of the benchmark: {call:?}");
        book.turn(call)
    };
    for &call in calls {
        turn(call);
    }
    let asked = questions.concat();
    let mut answers = Vec::new();
    for &(k1, k2, t1, t2) in &asked {
        let totals = turn(Call::Question { k1, k2, t1, t2 }).totals;
        answers.push((totals.count, totals.sum));
    }
    for &(k1, k2, t1, t2) in &asked {
        answers.push((turn(Call::BatTime { k1, k2, t1, t2 }).time.total, 0));
    }
    answers
}

/// The last tick of a season.
fn last_tick(calls: &[Call]) -> u32 {
    calls.iter().map(|call| if let Call::Start { tick, .. } | Call::End { tick, .. } = *call { tick } else { 0 }).max().unwrap()
}

/// One shape at one size. Returns the library's times.
fn compare(shape: workload::Shape, name: &str, passes: u32, runs: u32, clock: f64) -> [Time; 2 + READS] {
    let calls = season(shape, passes);
    let last = last_tick(&calls);
    let drawn = [questions_today, questions_past, questions_from_zero].map(|of_kind| of_kind(shape, last, QUESTIONS));
    let ends = calls.iter().filter(|call| matches!(call, Call::End { .. })).count();
    // A question to the list takes long, so it gets fewer of them.
    let few = (QUESTIONS as u64 * 20_000 / passes as u64).clamp(50, QUESTIONS as u64) as usize;
    let (mut library, mut port, mut list) = (Library(roomy_store(passes)), Port(roomy_store(passes)), List::default());
    let [mut by_library, mut by_port, mut by_list] = [QUESTIONS, QUESTIONS, few].map(|asked| Figures::new(passes as usize, ends, asked));
    let (all, some) = (drawn.each_ref().map(|questions| &questions[..]), drawn.each_ref().map(|questions| &questions[..few]));
    for _ in 0..runs {
        by_library.run(&mut library, &calls, all);
        by_port.run(&mut port, &calls, all);
        by_list.run(&mut list, &calls, some);
    }
    let wanted = by_book(&calls, some);
    assert!(by_list.answers == wanted, "the list's answers are not the book's");
    assert!(by_library.answers == by_port.answers, "the library's answers are not the port's");
    let by_kind: Vec<Answered> = by_library.answers.chunks(QUESTIONS).flat_map(|answers| &answers[..few]).copied().collect();
    assert!(by_kind == wanted, "the library's answers are not the book's");
    report(name, passes, &library.0.head, [&by_library, &by_port, &by_list], clock);
    by_library.times(clock)
}

/// The figures of one shape at one size, by the library, the port and the list.
fn report(name: &str, passes: u32, head: &Head, [by_library, by_port, by_list]: [&Figures; 3], clock: f64) {
    let bytes = head.uses.map(|used| (2_080 * used.pages as u64 + 8 * used.roots as u64) as f64 / passes as f64);
    println!(
        "\n{name}, {passes} passes: {:.0} bytes a pass, {:.0} of them of starts, {:.0} of ends and {:.0} of time; {} pages and {} roots of time",
        bytes.iter().sum::<f64>(), bytes[STARTS], bytes[ENDS], bytes[TIME], head.uses[TIME].pages, head.uses[TIME].roots
    );
    println!(
        "{:16}{:>10}{:>10}{:>12}{:>10}{:>12}{:>10}{:>10}{:>10}{:>8}",
        "", "lib mean", "slowest", "port mean", "slowest", "list mean", "slowest", "lib/port", "list/lib", "pages"
    );
    let (lib_times, port_times, list_times) = (by_library.times(clock), by_port.times(clock), by_list.times(clock));
    for (at, operation) in OPERATIONS.iter().enumerate() {
        let (lib, port, list) = (lib_times[at], port_times[at], list_times[at]);
        let opened = if at < 2 { String::new() } else { format!("{:.1}", by_library.pages[at - 2] as f64 / QUESTIONS as f64) };
        println!(
            "{operation:16}{:>10}{:>10}{:>12}{:>10}{:>12}{:>10}{:>10.2}{:>10.2}{opened:>8}",
            shown(lib.mean), shown(lib.slowest), shown(port.mean), shown(port.slowest), shown(list.mean), shown(list.slowest),
            lib.mean / port.mean, list.mean / lib.mean
        );
    }
}

/// One way to make 256 starts and ends: the store on which they are made over and over, and the best time of each 256.
struct Way {
    store: Store,
    best: Vec<u32>,
}

impl Way {
    fn new(groups: usize) -> Way {
        Way { store: roomy_store(TOGETHER_PASSES), best: vec![u32::MAX; groups] }
    }

    /// All of them once, from an opening on.
    fn run(&mut self, mut make: impl FnMut(&mut Store, usize)) {
        accepted(by_library(&mut self.store, Call::Open));
        for (group, time) in self.best.iter_mut().enumerate() {
            take_time(time, || make(&mut self.store, group));
        }
    }

    /// The mean time of one start or end.
    fn time(&self, clock: f64) -> f64 {
        Time::of(&self.best, clock).mean / TOGETHER as f64
    }
}

/// Who makes the calls, the packets, the bursts and the writes to a register block.
struct Maker {
    who: &'static str,
    single: fn(&mut Store, Call) -> Answer,
    packet: fn(&mut Store, &[u8], bool, &mut [u8]) -> Fed,
    burst: fn(&mut Store, &[u8], &mut [u64]) -> u8,
    write: fn(&mut Store, &mut Block, usize, u8),
}

const MAKERS: [Maker; 2] = [
    Maker { who: "library", single: by_library, packet: packet_by_library, burst: burst_by_library, write: write_by_library },
    Maker { who: "port", single: by_port, packet: packet_by_port, burst: burst_by_port, write: write_by_port },
];

/// The bytes of a call's command.
fn bytes_of(call: Call) -> Vec<u8> {
    match call {
        Call::Start { tick, key, weight } => commands::start(tick, key, weight),
        Call::End { tick, number } => commands::end(tick, number),
        Call::Question { k1, k2, t1, t2 } => commands::question(k1, k2, t1, t2),
        Call::BatTime { k1, k2, t1, t2 } => commands::bat_time(k1, k2, t1, t2),
        _ => Vec::new(),
    }
}

/// The events of a season by single calls, and the same events as packets and as bursts. The three take turns, so that what else the machine does
/// bears on all of them.
fn compare_together(Maker { who, single, packet, burst, .. }: &Maker, name: &str, calls: &[Call], runs: u32, clock: f64) {
    let groups: Vec<&[Call]> = calls.chunks_exact(TOGETHER).collect();
    let bytes: Vec<Vec<u8>> = groups.iter().map(|group| group.iter().flat_map(|&call| bytes_of(call)).collect()).collect();
    let (mut out, mut results) = ([0; 18 * TOGETHER], [0; 2 * TOGETHER]);
    let [mut by_calls, mut by_packets, mut by_bursts] = [(); 3].map(|()| Way::new(groups.len()));
    for _ in 0..runs {
        by_calls.run(|store, at| groups[at].iter().for_each(|&call| {
            black_box(accepted(single(store, call)));
        }));
        by_packets.run(|store, at| {
            assert!(packet(store, &bytes[at], false, &mut out).taken == bytes[at].len(), "not all of a packet was taken");
        });
        by_bursts.run(|store, at| assert!(burst(store, &bytes[at], black_box(&mut results)) == 0, "a burst was refused"));
    }
    assert!(by_packets.store == by_calls.store, "packets leave another store than single calls");
    assert!(by_bursts.store == by_calls.store, "bursts leave another store than single calls");
    let [calls, packets, bursts] = [by_calls, by_packets, by_bursts].map(|way| way.time(clock));
    println!(
        "{name}, {TOGETHER} starts and ends at a time, {who}: {} an event by single calls, {} in a packet, {:.2} times, {} in a burst, {:.2} times",
        shown(calls), shown(packets), packets / calls, shown(bursts), bursts / calls
    );
}

/// What a command through a register block is compared with: the direct call, the write to byte 0 alone, and that with the writes of its operands
/// before it.
#[derive(Clone, Copy, PartialEq)]
enum Through {
    Call,
    Command,
    Registers,
}

/// The kinds of calls that are commands, in the order of their first bytes.
const COMMANDS: [&str; 4] = ["start", "end", "question", "bat-time"];

/// One such way: its store and its block, and the best time of each call of each kind.
struct Accessed {
    store: Store,
    block: Block,
    best: [Vec<u32>; COMMANDS.len()],
}

/// The status register.
const STATUS: usize = 13;

impl Accessed {
    fn new() -> Accessed {
        Accessed { store: roomy_store(TOGETHER_PASSES), block: [0; BLOCK_BYTES], best: Default::default() }
    }

    /// Makes all calls once, from an opening on. The first run makes place for the times.
    fn run(&mut self, maker: &Maker, through: Through, calls: &[(Call, Vec<u8>)]) {
        accepted(by_library(&mut self.store, Call::Open));
        let mut places = [0; COMMANDS.len()];
        for (call, bytes) in calls {
            let kind = bytes[0] as usize - 1;
            if self.best[kind].len() == places[kind] {
                self.best[kind].push(u32::MAX);
            }
            self.make(maker, through, *call, bytes, kind, places[kind]);
            places[kind] += 1;
        }
    }

    fn make(&mut self, Maker { single, write, .. }: &Maker, through: Through, call: Call, bytes: &[u8], kind: usize, place: usize) {
        let Accessed { store, block, best } = self;
        let time = &mut best[kind][place];
        let write_operands = |store: &mut Store, block: &mut Block| {
            for (offset, &operand) in bytes.iter().enumerate().skip(1) {
                write(store, block, offset, operand);
            }
        };
        if through == Through::Command {
            write_operands(store, block);
        }
        take_time(time, || match through {
            Through::Call => {
                black_box(accepted(single(store, black_box(call))));
            }
            Through::Command => write(store, black_box(block), 0, bytes[0]),
            Through::Registers => {
                write_operands(store, black_box(block));
                write(store, black_box(block), 0, bytes[0]);
            }
        });
        assert!(through == Through::Call || block[STATUS] == 0, "a command of the benchmark was refused: {}", block[STATUS]);
    }

    fn mean(&self, kind: usize, clock: f64) -> f64 {
        Time::of(&self.best[kind], clock).mean
    }
}

/// The starts and ends of a season, and questions and bat-times of its last day, by direct calls and through a register block. The ways take turns.
fn compare_block(maker: &Maker, shape: workload::Shape, name: &str, calls: &[Call], runs: u32, clock: f64) {
    let last = last_tick(calls);
    let asked = questions_today(shape, last, QUESTIONS)
        .into_iter()
        .flat_map(|(k1, k2, t1, t2)| [Call::Question { k1, k2, t1, t2 }, Call::BatTime { k1, k2, t1, t2 }]);
    let made: Vec<(Call, Vec<u8>)> = calls.iter().copied().chain(asked).map(|call| (call, bytes_of(call))).collect();
    let ways = [Through::Call, Through::Command, Through::Registers];
    let mut accessed = ways.map(|_| Accessed::new());
    for _ in 0..runs {
        for (way, through) in accessed.iter_mut().zip(ways) {
            way.run(maker, through, &made);
        }
    }
    assert!(accessed.iter().all(|way| way.store == accessed[0].store), "commands through a block leave another store than direct calls");
    for (kind, command) in COMMANDS.iter().enumerate() {
        let [direct, alone, registers] = [0, 1, 2].map(|way| accessed[way].mean(kind, clock));
        println!(
            "{name}, {command}, {}: {} by the call, {} by the write to byte 0 of a register block, {:.2} times, {} with the writes of its operands, \
             {:.2} times",
            maker.who, shown(direct), shown(alone), alone / direct, shown(registers), registers / direct
        );
    }
}

fn main() {
    let argument = |place, default| std::env::args().nth(place).map_or(default, |text| text.parse().expect("LARGEST and RUNS are numbers"));
    let (largest, runs): (u32, u32) = (argument(1, u32::MAX), argument(2, 3));
    let sizes: Vec<u32> = SIZES.into_iter().filter(|&size| size <= largest).collect();
    let clock = clock_time();
    println!("Reading the clock takes {clock:.0} ns, which is subtracted. Of each call the best of {runs} runs counts.");
    for (shape, name) in SHAPES {
        let times: Vec<[Time; 2 + READS]> = sizes.iter().map(|&size| compare(shape, name, size, runs, clock)).collect();
        if sizes.len() < 2 {
            continue;
        }
        println!("\n{name}, growth of the library's mean time from size to size:");
        for (at, operation) in OPERATIONS.iter().enumerate() {
            let steps: Vec<String> = sizes
                .windows(2)
                .zip(times.windows(2))
                .map(|(sizes, times)| format!("{} to {}: {:.2}", sizes[0], sizes[1], times[1][at].mean / times[0][at].mean))
                .collect();
            println!("{operation:16}{}", steps.join("   "));
        }
    }
    println!();
    for (shape, name) in SHAPES {
        let calls = season(shape, TOGETHER_PASSES);
        for maker in &MAKERS {
            compare_together(maker, name, &calls, runs, clock);
        }
    }
    println!();
    for (shape, name) in SHAPES {
        let calls = season(shape, TOGETHER_PASSES);
        for maker in &MAKERS {
            compare_block(maker, shape, name, &calls, runs, clock);
        }
    }
}
