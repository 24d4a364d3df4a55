//! Random histories: the next call of a detector, by shape of keys and pace.

use crate::library::{Call, Random};
use port::TREES;

/// How keys are drawn.
#[derive(Clone, Copy, Debug)]
pub enum Keys {
    Uniform,
    /// A few narrow bands
    Bands,
    OneBand,
    OneKey,
    Few,
    Rising,
    Falling,
    Strides,
    Edges,
}

/// How ticks go on.
#[derive(Clone, Copy, Debug)]
pub enum Pace {
    /// Every call at the same tick
    Still,
    /// One tick on, or none
    Slow,
    /// Swarms at one tick, then a jump
    Swarms,
    /// Jumps of any size
    Jumps,
    /// Leaps over all ticks that there are
    Leaps,
    /// Close to the last tick of all
    Late,
}

const KEYS: [Keys; 9] = [
    Keys::Uniform,
    Keys::Bands,
    Keys::OneBand,
    Keys::OneKey,
    Keys::Few,
    Keys::Rising,
    Keys::Falling,
    Keys::Strides,
    Keys::Edges,
];
const PACES: [Pace; 6] = [Pace::Still, Pace::Slow, Pace::Swarms, Pace::Jumps, Pace::Leaps, Pace::Late];

/// What the calls are.
#[derive(Clone, Copy)]
pub struct Mix {
    /// Of a hundred calls, how many are starts, and how many ends
    pub starts: u32,
    pub ends: u32,
    /// Of a hundred ends, how many are of the newest pass at the last tick
    pub clicks: u32,
    /// How many passes are open together. Where it is one, the points of the trees of starts and of ends come in the same order
    pub together: usize,
}

pub struct Shape {
    keys: Keys,
    pace: Pace,
    mix: Mix,
    /// Weights are drawn from here up to the highest
    lightest: u32,
    turn: u32,
    /// The tick of an end that was drawn: there, and one tick later, it is decided whether the pass is counted
    ended: u32,
}

impl Shape {
    pub fn new(keys: Keys, pace: Pace, mix: Mix) -> Shape {
        Shape { keys, pace, mix, lightest: 1, turn: 0, ended: 0 }
    }

    pub fn any(random: &mut Random) -> Shape {
        let (starts, ends) = *random.pick(&[(50, 40), (40, 40), (80, 10), (45, 45), (30, 30)]);
        let (clicks, together) = (*random.pick(&[0, 5, 30, 90]), *random.pick(&[1, 64, 64, 64, 64, 64]));
        let shape = Shape::new(*random.pick(&KEYS), *random.pick(&PACES), Mix { starts, ends, clicks, together });
        // Only heavy passes have the highest bat-times that there are.
        Shape { lightest: *random.pick(&[1, 1, 1, 9_900]), ..shape }
    }

    fn key(&mut self, random: &mut Random) -> u32 {
        self.turn += 1;
        match self.keys {
            Keys::Uniform => random.below(30_000),
            Keys::Bands => *random.pick(&[2_000, 2_500, 4_500, 5_500, 11_000]) + random.below(150),
            Keys::OneBand => 4_400 + random.below(300),
            Keys::OneKey => 4_500,
            Keys::Few => random.below(10) * 3_000 + random.below(2),
            Keys::Rising => self.turn % 30_000,
            Keys::Falling => 29_999 - self.turn % 30_000,
            Keys::Strides => self.turn * 37 % 30_000,
            Keys::Edges => *random.pick(&[0, 1, 2, 29_997, 29_998, 29_999]),
        }
    }

    /// The next tick, not before the last one.
    fn tick(&mut self, random: &mut Random, last: u32) -> u32 {
        let step = match self.pace {
            Pace::Still => u32::from(random.one_in(200)),
            Pace::Slow => random.below(2),
            Pace::Swarms => if random.one_in(50) { random.below(5_000) } else { 0 },
            Pace::Jumps => 1 << random.below(16),
            Pace::Leaps => random.below(20_000_000),
            Pace::Late => if last < 4_294_960_000 { 4_294_960_000 - last } else { u32::from(random.one_in(4)) },
        };
        last.saturating_add(step).min(u32::MAX - 1)
    }

    /// A call on a store of which the last tick, the number started and the open passes are known. Now and then it is one to be refused.
    pub fn call(&mut self, random: &mut Random, last: u32, started: u32, open: &[u32]) -> Call {
        if random.one_in(60) {
            return self.odd_call(random, last, started);
        }
        let (turn, Mix { starts, ends, together, .. }) = (random.below(100), self.mix);
        // With no room for a start, or nothing to end, the other one is likelier to be accepted. Now and then one start is too many.
        let room = open.len() < together || open.len() == 64 && random.one_in(16);
        if turn < starts && room || turn < starts + ends && open.is_empty() {
            return Call::Start { tick: self.tick(random, last), key: self.key(random), weight: random.between(self.lightest, 10_000) };
        }
        if turn < starts + ends {
            return self.end(random, last, open);
        }
        let near = last.saturating_add(50);
        if random.one_in(2) {
            return Call::Lookup { tree: any_tree(random), t: self.asked_tick(random, near).min(u32::MAX - 1), k: self.asked_key(random) };
        }
        let (k, l) = (self.asked_key(random), self.asked_key(random));
        let (k1, k2) = (k.min(l), k.max(l) + 1);
        let (t1, t2) = self.asked_ticks(random, near);
        if random.one_in(2) { Call::Question { k1, k2, t1, t2 } } else { Call::BatTime { k1, k2, t1, t2 } }
    }

    /// The end of an open pass. The newest one has most likely started at the last tick, and its end there makes it a click.
    fn end(&mut self, random: &mut Random, last: u32, open: &[u32]) -> Call {
        let click = random.below(100) < self.mix.clicks;
        let (tick, number) = if click { (last, open[open.len() - 1]) } else { (self.tick(random, last), *random.pick(open)) };
        if random.one_in(4) {
            self.ended = tick;
        }
        Call::End { tick, number }
    }

    fn asked_key(&mut self, random: &mut Random) -> u32 {
        match random.below(4) {
            0 => *random.pick(&[0, 1, 29_998, 29_999]),
            1 => random.below(30_000),
            _ => self.key(random).saturating_sub(random.below(2)),
        }
    }

    fn asked_tick(&mut self, random: &mut Random, near: u32) -> u32 {
        match random.below(8) {
            0 => 0,
            1 => u32::MAX - random.below(3),
            2 | 3 => near.saturating_sub(random.below(120)),
            4 => self.ended.saturating_sub(random.below(2)),
            _ => random.between(0, near),
        }
    }

    /// Two ticks to ask about, the first below the second. Some questions begin at tick 0, and some at the end of a pass or right after it.
    fn asked_ticks(&mut self, random: &mut Random, near: u32) -> (u32, u32) {
        let (t, u) = (self.asked_tick(random, near), self.asked_tick(random, near));
        let t1 = match random.below(8) {
            0 => 0,
            1 => self.ended,
            2 => self.ended.saturating_add(1),
            _ => t.min(u),
        };
        (t1, t.max(u).max(t1).saturating_add(1))
    }

    /// A call with an argument or more out of range, too early, or of no open pass.
    fn odd_call(&mut self, random: &mut Random, last: u32, started: u32) -> Call {
        let key = *random.pick(&[0, 29_999, 30_000, 30_001, 65_536, 65_537, u32::MAX]);
        let weight = *random.pick(&[0, 1, 10_000, 10_001, 65_537, u32::MAX]);
        let tick = *random.pick(&[0, last.saturating_sub(1), last, u32::MAX - 1, u32::MAX, u32::MAX]);
        match random.below(8) {
            0 => Call::Start { tick: *random.pick(&[0, last, last, u32::MAX]), key, weight: *random.pick(&[weight, 50]) },
            1 => Call::Start { tick: last.saturating_sub(random.below(3)), key: random.below(30_000), weight },
            2 => Call::End { tick: *random.pick(&[last.saturating_sub(1), last, last, u32::MAX]), number: random.between(0, started) },
            3 | 4 => Call::Lookup { tree: any_tree(random), t: tick, k: key },
            _ => {
                let (t1, t2) = *random.pick(&[(0, u32::MAX), (5, 5), (6, 5), (last, last.saturating_add(1)), (u32::MAX, u32::MAX)]);
                let (k1, k2) = (*random.pick(&[0, 0, key]), *random.pick(&[30_000, 30_001, key, 1]));
                if random.one_in(2) { Call::Question { k1, k2, t1, t2 } } else { Call::BatTime { k1, k2, t1, t2 } }
            }
        }
    }
}

/// One of the trees of a store.
pub fn any_tree(random: &mut Random) -> usize {
    random.below(TREES as u32) as usize
}
