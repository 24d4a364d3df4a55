//! What the benchmark asks of a store: seasons of passes by shape of keys, and questions about them.

use crate::library::{Call, Random};

#[derive(Clone, Copy)]
pub enum Shape {
    Bands,
    Uniform,
    OneBand,
}

pub const SHAPES: [(Shape, &str); 3] = [(Shape::Bands, "species bands"), (Shape::Uniform, "uniform keys"), (Shape::OneBand, "one band")];

/// Low keys of species, and how many keys each spans: peak frequencies in units of 10 Hz.
const SPECIES: [(u32, u32); 6] = [(2_000, 200), (2_500, 250), (4_000, 200), (4_500, 200), (5_500, 200), (11_000, 150)];

/// Ticks of a day.
const DAY: u32 = 8_640_000;

impl Shape {
    fn band(self, random: &mut Random) -> (u32, u32) {
        match self {
            Shape::Bands => *random.pick(&SPECIES),
            Shape::Uniform => (0, 30_000),
            Shape::OneBand => (4_400, 300),
        }
    }

    fn key(self, random: &mut Random) -> u32 {
        let (low, span) = self.band(random);
        low + random.below(span)
    }
}

/// A season of passes as starts and ends in order of time. Most come in bursts, some 2,000 a day, so that a million of them take the
/// 497 days that ticks last; each goes on for some seconds, down to a click of one tick.
pub fn season(shape: Shape, passes: u32) -> Vec<Call> {
    let mut random = Random(passes as u64);
    let mut calls = Vec::with_capacity(2 * passes as usize);
    // End tick and number of each open pass, the soonest last.
    let mut open: Vec<(u32, u32)> = Vec::new();
    let mut tick = 1;
    for number in 0..passes {
        tick += if random.below(100) < 80 { random.below(200) } else { random.below(40_000) };
        while open.last().is_some_and(|&(end, _)| end <= tick || open.len() == 64) {
            let (end, ending) = open.pop().unwrap();
            tick = tick.max(end);
            calls.push(Call::End { tick: end, number: ending });
        }
        calls.push(Call::Start { tick, key: shape.key(&mut random), weight: random.between(1, 10_000) });
        let end = tick + random.between(0, 600);
        let at = open.partition_point(|&(other, _)| other > end);
        open.insert(at, (end, number));
    }
    calls
}

/// A question: k1, k2, t1, t2.
pub type Question = (u32, u32, u32, u32);

/// Questions about parts of the last day before a tick.
pub fn questions_today(shape: Shape, last: u32, count: usize) -> Vec<Question> {
    let mut random = Random(1);
    (0..count).map(|_| {
        let from = last.saturating_sub(DAY);
        let (t, u) = (random.between(from, last), random.between(from, last));
        with_keys(shape, &mut random, t.min(u), t.max(u) + 1)
    }).collect()
}

/// Questions about a part of a day at any time before a tick.
pub fn questions_past(shape: Shape, last: u32, count: usize) -> Vec<Question> {
    let mut random = Random(2);
    (0..count).map(|_| {
        let t1 = random.between(0, last);
        let t2 = t1 + random.between(1, DAY.min(u32::MAX - t1));
        with_keys(shape, &mut random, t1, t2)
    }).collect()
}

/// Questions about all ticks from 0 up to one of the last day before a tick. They look up no ends.
pub fn questions_from_zero(shape: Shape, last: u32, count: usize) -> Vec<Question> {
    let mut random = Random(3);
    (0..count).map(|_| {
        let t2 = random.between(last.saturating_sub(DAY), last) + 1;
        with_keys(shape, &mut random, 0, t2)
    }).collect()
}

/// Half the questions are about a whole band, half about a part of it.
fn with_keys(shape: Shape, random: &mut Random, t1: u32, t2: u32) -> Question {
    let (low, span) = shape.band(random);
    let (k, l) = (low + random.below(span), low + random.below(span));
    let whole = random.one_in(2) && span < 30_000;
    if whole { (low, low + span, t1, t2) } else { (k.min(l).max(1), k.max(l).max(1) + 1, t1, t2) }
}
