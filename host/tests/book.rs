//! The pass book of document 01: a plain list of passes, added up on demand. A pass lives at its start tick to its end tick, both included (document
//! 02, Paper 2), and its bat-time is its weight for each tick of the interval at which it lives (Paper 4). It is the one book on the host, for the random
//! histories and for what the benchmark checks.

use crate::library::{Answer, Call};
use port::{ENDS, STARTS};

pub struct Pass {
    pub key: u32,
    pub weight: u32,
    pub start: u32,
    pub end: Option<u32>,
}

impl Pass {
    /// How many ticks from t1 up to but not t2 the pass lives at; an open one runs on.
    fn shared_ticks(&self, t1: u32, t2: u32) -> u32 {
        let after = self.end.map_or(t2, |end| t2.min(end + 1));
        after.saturating_sub(t1.max(self.start))
    }

    /// What the pass gives to a lookup of the tree of time at a tick: the factors and the constants of its points up to there, modulo 2^64.
    fn line(&self, t: u32) -> (u64, u64) {
        let weight = self.weight as u64;
        let (mut factor, mut constant) = (0u64, 0u64);
        if self.start <= t {
            factor = factor.wrapping_add(weight);
            constant = constant.wrapping_add(weight).wrapping_sub(weight * self.start as u64);
        }
        if let Some(end) = self.end.filter(|&end| end <= t) {
            factor = factor.wrapping_sub(weight);
            constant = constant.wrapping_add(weight * end as u64);
        }
        (factor, constant)
    }
}

#[derive(Default)]
pub struct Book {
    pub last: u32,
    pub passes: Vec<Pass>,
    /// The numbers of the passes that are open
    pub open: Vec<u32>,
}

impl Book {
    /// "the first refusal of these papers, in their order, 20 and 26 to 28 left out, that its arguments and the book meet"
    pub fn refusal(&self, call: Call) -> u8 {
        let of = |grounds: &[(bool, u8)]| grounds.iter().find(|ground| ground.0).map_or(0, |ground| ground.1);
        match call {
            Call::Open => 0,
            Call::Start { tick, key, weight } => of(&[
                (key > 29_999, 1),
                (weight == 0 || weight > 10_000, 3),
                (tick == u32::MAX, 4),
                (tick < self.last, 21),
                (self.open.len() >= 64, 24),
                (self.passes.len() >= 1_000_000, 25),
            ]),
            Call::End { tick, number } => {
                let pass = self.passes.get(number as usize).filter(|pass| pass.end.is_none());
                of(&[(tick == u32::MAX, 4), (tick < self.last, 21), (pass.is_none(), 22)])
            }
            Call::Question { k1, k2, t1, t2 } | Call::BatTime { k1, k2, t1, t2 } => {
                of(&[(k1 > 29_999 || k2 > 30_000, 1), (k1 >= k2, 2), (t1 >= t2, 5)])
            }
            Call::Lookup { t, k, .. } => of(&[(k > 29_999, 1), (t == u32::MAX, 4)]),
        }
    }

    /// What the book answers to a call that it does not refuse, and what it then holds.
    pub fn turn(&mut self, call: Call) -> Answer {
        let mut answer = Answer::unset(0);
        let mut add = |passes: &[Pass], meets: &dyn Fn(&Pass) -> bool| {
            (answer.totals.count, answer.totals.sum) = (0, 0);
            for pass in passes.iter().filter(|pass| meets(pass)) {
                answer.totals.count += 1;
                answer.totals.sum += pass.weight as u64;
            }
        };
        match call {
            Call::Open => *self = Book::default(),
            Call::Start { tick, key, weight } => {
                answer.number = self.passes.len() as u32;
                self.open.push(answer.number);
                self.passes.push(Pass { key, weight, start: tick, end: None });
                self.last = tick;
            }
            Call::End { tick, number } => {
                self.passes[number as usize].end = Some(tick);
                self.open.retain(|&other| other != number);
                self.last = tick;
            }
            Call::Question { k1, k2, t1, t2 } => {
                add(&self.passes, &|pass| k1 <= pass.key && pass.key < k2 && pass.start < t2 && pass.end.is_none_or(|end| end >= t1))
            }
            Call::BatTime { k1, k2, t1, t2 } => answer.time.total = self.bat_time(k1, k2, t1, t2),
            Call::Lookup { tree: STARTS, t, k } => add(&self.passes, &|pass| pass.start <= t && pass.key <= k),
            Call::Lookup { tree: ENDS, t, k } => add(&self.passes, &|pass| pass.end.is_some_and(|end| end <= t) && pass.key <= k),
            Call::Lookup { t, k, .. } => (answer.totals.count, answer.totals.sum) = self.line(t, k),
        }
        answer
    }

    /// Bat-time as the number that it is: it is added up in more bits than it can have, and must fit in those of the answer.
    fn bat_time(&self, k1: u32, k2: u32, t1: u32, t2: u32) -> u64 {
        let band = self.passes.iter().filter(|pass| k1 <= pass.key && pass.key < k2);
        let total: u128 = band.map(|pass| pass.weight as u128 * pass.shared_ticks(t1, t2) as u128).sum();
        total.try_into().expect("a bat-time has at most 64 bits")
    }

    /// What a lookup of the tree of time gives, modulo 2^64.
    pub fn line(&self, t: u32, k: u32) -> (u64, u64) {
        let lines = self.passes.iter().filter(|pass| pass.key <= k).map(|pass| pass.line(t));
        lines.fold((0, 0), |sum: (u64, u64), line| (sum.0.wrapping_add(line.0), sum.1.wrapping_add(line.1)))
    }
}
