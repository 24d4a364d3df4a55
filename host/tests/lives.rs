//! What came about of closed lives in the histories: clicks, ticks with many starts and ends, and questions that one tick decides.

use crate::book::Book;
use crate::library::{Call, Store};
use crate::trees::Tree;
use port::{ENDS, STARTS};

/// As many passes as may be open together. More starts than that in one tick, or more ends, are made only by clicks.
const OPEN_PASSES: u32 = 64;

/// The starts and ends of a history at its last tick.
#[derive(Default)]
pub struct Crowd {
    starts: u32,
    ends: u32,
}

#[derive(Default)]
pub struct Lives {
    clicks: u64,
    pub in_bursts: u64,
    /// Clicks by the height of the tree of ends in which they ended, 1 to 4 pages, and by that of the tree of starts
    by_ends_height: [u64; 5],
    by_starts_height: [u64; 5],
    /// Ticks of more than 64 starts, of more than 64 ends, and the latter where the tree of ends is three pages high or more
    of_many_starts: u64,
    of_many_ends: u64,
    of_many_ends_high: u64,
    /// Questions with t1 = 0, and such with a pass of the band that ended there
    from_zero: u64,
    ended_at_zero: u64,
    /// Questions with t1 at the end of a pass of the band, which is counted, and one tick later, where it is not
    at_end: u64,
    after_end: u64,
}

impl Lives {
    pub fn clicks(&self) -> u64 {
        self.clicks
    }

    /// A call that the book accepts and is about to make, and that the store has made.
    pub fn count(&mut self, call: Call, book: &Book, store: &Store, crowd: &mut Crowd) {
        match call {
            Call::Open => *crowd = Crowd::default(),
            Call::Start { tick, .. } => {
                crowd.go_on(tick, book.last);
                crowd.starts += 1;
                self.of_many_starts += u64::from(crowd.starts == OPEN_PASSES + 1);
            }
            Call::End { tick, number } => {
                crowd.go_on(tick, book.last);
                crowd.ends += 1;
                self.count_end(book.passes[number as usize].start == tick, store, crowd);
            }
            Call::Question { k1, k2, t1, .. } => self.count_question(k1, k2, t1, book),
            Call::BatTime { .. } | Call::Lookup { .. } => (),
        }
    }

    fn count_end(&mut self, is_click: bool, store: &Store, crowd: &Crowd) {
        let [starts, ends] = [STARTS, ENDS].map(|tree| Tree::of(store, tree).height() as usize);
        if is_click {
            self.clicks += 1;
            self.by_starts_height[starts.min(4)] += 1;
            self.by_ends_height[ends.min(4)] += 1;
        }
        if crowd.ends == OPEN_PASSES + 1 {
            self.of_many_ends += 1;
            self.of_many_ends_high += u64::from(ends >= 3);
        }
    }

    fn count_question(&mut self, k1: u32, k2: u32, t1: u32, book: &Book) {
        let one_ended_at = |tick: u32| book.passes.iter().any(|pass| k1 <= pass.key && pass.key < k2 && pass.end == Some(tick));
        let ended_at_t1 = one_ended_at(t1);
        self.from_zero += u64::from(t1 == 0);
        self.ended_at_zero += u64::from(t1 == 0 && ended_at_t1);
        self.at_end += u64::from(ended_at_t1);
        self.after_end += u64::from(t1.checked_sub(1).is_some_and(one_ended_at));
    }

    /// Each with its name. One that never came about is a test that was not made.
    pub fn named(&self) -> [(u64, &'static str); 13] {
        [
            (self.clicks, "clicks"),
            (self.in_bursts, "of them in bursts"),
            (self.by_ends_height[3], "with a tree of ends 3 pages high"),
            (self.by_ends_height[4], "4 pages high"),
            (self.by_starts_height[3], "with a tree of starts 3 pages high"),
            (self.by_starts_height[4], "4 pages high"),
            (self.of_many_starts, "ticks of over 64 starts"),
            (self.of_many_ends, "of over 64 ends"),
            (self.of_many_ends_high, "of over 64 ends in a tree 3 pages high or more"),
            (self.from_zero, "questions from tick 0"),
            (self.ended_at_zero, "of them about a pass that ended there"),
            (self.at_end, "questions from the end of a pass on"),
            (self.after_end, "from the tick after it"),
        ]
    }
}

impl Crowd {
    /// A start or an end at a tick; at a new tick the crowd is counted anew.
    fn go_on(&mut self, tick: u32, last: u32) {
        if tick != last {
            *self = Crowd::default();
        }
    }
}
