//! The plain list: every pass in arrays, added up on demand as fast as a processor can. A pass lives at its end tick too. It is a contender of the
//! benchmark and nothing else: what is right is said by the pass book (tests/book.rs), with which the benchmark compares it too.

/// Passes as arrays, in order of their starts. Ends are kept as signed numbers in the same order, since the processor compares those faster;
/// an open pass has the highest.
#[derive(Default)]
pub struct List {
    starts: Vec<u32>,
    ends: Vec<i32>,
    keys: Vec<u16>,
    weights: Vec<u16>,
}

const OPEN: u32 = u32::MAX;

/// Passes that are added up in 32 bits: their weights, at most 10,000 each, cannot overflow.
const BLOCK: usize = 4096;

/// Passes whose ticks are kept beside one another before they are multiplied.
const FEW: usize = 256;

fn ordered(tick: u32) -> i32 {
    (tick ^ 1 << 31) as i32
}

impl List {
    pub fn clear(&mut self) {
        self.starts.clear();
        self.ends.clear();
        self.keys.clear();
        self.weights.clear();
    }

    pub fn start(&mut self, tick: u32, key: u32, weight: u32) -> u32 {
        self.starts.push(tick);
        self.ends.push(ordered(OPEN));
        self.keys.push(key as u16);
        self.weights.push(weight as u16);
        self.starts.len() as u32 - 1
    }

    pub fn end(&mut self, tick: u32, number: u32) {
        self.ends[number as usize] = ordered(tick);
    }

    /// Starts rise, so the passes that started before t2 are found by halves; of those, all are looked at.
    pub fn question(&self, k1: u32, k2: u32, t1: u32, t2: u32) -> (u64, u64) {
        let upto = self.starts.partition_point(|&start| start < t2);
        let blocks = self.keys[..upto].chunks(BLOCK).zip(self.ends[..upto].chunks(BLOCK)).zip(self.weights[..upto].chunks(BLOCK));
        let (low, width, from) = (k1 as u16, (k2 - k1) as u16, ordered(t1));
        let mut totals = (0, 0);
        for ((keys, ends), weights) in blocks {
            let (count, sum) = add_block(keys, ends, weights, low, width, from);
            totals = (totals.0 + count as u64, totals.1 + sum as u64);
        }
        totals
    }

    /// Weight times ticks of t1 up to but not t2, over the passes that started before t2: first the ticks of a few passes, then their products.
    pub fn bat_time(&self, k1: u32, k2: u32, t1: u32, t2: u32) -> u64 {
        let upto = self.starts.partition_point(|&start| start < t2);
        let lives = self.starts[..upto].chunks(FEW).zip(self.ends[..upto].chunks(FEW));
        let banded = self.keys[..upto].chunks(FEW).zip(self.weights[..upto].chunks(FEW));
        let (low, width, from, last) = (k1 as u16, (k2 - k1) as u16, ordered(t1), ordered(t2 - 1));
        let mut total = 0;
        for ((starts, ends), (keys, weights)) in lives.zip(banded) {
            let mut ticks = [0; FEW];
            put_ticks(&mut ticks, keys, starts, ends, low, width, from, last);
            total += ticks.iter().zip(weights).map(|(&ticks, &weight)| ticks as u64 * weight as u64).sum::<u64>();
        }
        total
    }
}

/// Without branches, so that the compiler takes several passes at once.
fn add_block(keys: &[u16], ends: &[i32], weights: &[u16], low: u16, width: u16, from: i32) -> (u32, u32) {
    let (mut count, mut sum) = (0, 0);
    for ((&key, &end), &weight) in keys.iter().zip(ends).zip(weights) {
        let meets = u32::from((key.wrapping_sub(low) < width) & (end >= from));
        count += meets;
        sum += meets.wrapping_neg() & weight as u32;
    }
    (count, sum)
}

/// The ticks that each pass has in the interval, 0 where it does not meet it: from its own first tick or that of the interval, up to its own last tick or that
/// of the interval.
fn put_ticks(ticks: &mut [u32], keys: &[u16], starts: &[u32], ends: &[i32], low: u16, width: u16, from: i32, last: i32) {
    for (((ticks, &key), &start), &end) in ticks.iter_mut().zip(keys).zip(starts).zip(ends) {
        let meets = u32::from((key.wrapping_sub(low) < width) & (end >= from));
        *ticks = meets.wrapping_neg() & end.min(last).wrapping_sub(ordered(start).max(from)).wrapping_add(1) as u32;
    }
}
