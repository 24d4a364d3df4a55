//! What came about of bat-time in the histories: how lives and intervals meet, how large totals are, and which tree a start or an end lacks room in.

use crate::book::{Book, Pass};
use crate::library::{Call, Store};
use crate::trees::{Lack, Tree};
use port::TIME;

#[derive(Default)]
pub struct Times {
    asked: u64,
    from_zero: u64,
    /// With a pass of the band that is open, and an interval that goes on after the last tick
    running_on: u64,
    /// With a pass of the band that lives before, in and after the interval; that starts in it and ends in it; that is a click in it
    through: u64,
    within: u64,
    clicks: u64,
    /// With a pass of the band whose last tick is the first of the interval, and one whose first tick is the last
    at_last_tick: u64,
    at_first_tick: u64,
    /// Totals of more than 32 bits, of more than 51 (none has more than 52), and such as are nothing
    over_32_bits: u64,
    over_51_bits: u64,
    nothing: u64,
    /// By the height of the tree of time, 1 to 4 pages; and where its lookup at t2 - 1 has a constant below zero, which is modulo 2^64
    by_height: [u64; 5],
    below_zero: u64,
    /// Starts and ends refused with 27, and with 28, by which trees lack it: that of their own alone, that of time alone, both
    pages_lack: [u64; 3],
    root_lacks: [u64; 3],
    /// Refused with 27 where one tree lacks pages and the other only a root entry
    mixed: u64,
}

impl Times {
    /// A bat-time that the book answers, with its total, after the store has answered it.
    pub fn count(&mut self, call: Call, total: u64, book: &Book, store: &Store) {
        let Call::BatTime { k1, k2, t1, t2 } = call else { return };
        let some = |meets: &dyn Fn(&Pass) -> bool| u64::from(book.passes.iter().any(|pass| k1 <= pass.key && pass.key < k2 && meets(pass)));
        self.asked += 1;
        self.from_zero += u64::from(t1 == 0);
        self.running_on += u64::from(t2 > book.last) * some(&|pass| pass.end.is_none());
        self.through += some(&|pass| pass.start < t1 && pass.end.is_some_and(|end| end >= t2));
        self.within += some(&|pass| pass.start >= t1 && pass.end.is_some_and(|end| end > pass.start && end < t2));
        self.clicks += some(&|pass| pass.start >= t1 && pass.start < t2 && pass.end == Some(pass.start));
        self.at_last_tick += some(&|pass| pass.start < t1 && pass.end == Some(t1));
        self.at_first_tick += some(&|pass| pass.start + 1 == t2 && pass.end != Some(pass.start));
        self.over_32_bits += u64::from(total >> 32 != 0);
        self.over_51_bits += u64::from(total >> 51 != 0);
        self.nothing += u64::from(total == 0);
        self.by_height[Tree::of(store, TIME).height().min(4) as usize] += 1;
        self.below_zero += u64::from(book.line(t2 - 1, k2 - 1).1 >> 63 != 0);
    }

    /// A start or an end that was refused with 27 or 28, and what lacks in the tree of its own and in that of time.
    pub fn count_lack(&mut self, refusal: u8, [own, time]: [Lack; 2]) {
        let (lacks, in_own, in_time) = match refusal {
            27 => (&mut self.pages_lack, own.pages, time.pages),
            _ => (&mut self.root_lacks, own.root, time.root),
        };
        match (in_own, in_time) {
            (true, false) => lacks[0] += 1,
            (false, true) => lacks[1] += 1,
            (true, true) => lacks[2] += 1,
            (false, false) => (),
        }
        self.mixed += u64::from(refusal == 27 && (own.pages && !time.pages && time.root || time.pages && !own.pages && own.root));
    }

    /// Each with its name. One that never came about is a test that was not made.
    pub fn named(&self) -> [(u64, &'static str); 23] {
        [
            (self.asked, "bat-times"),
            (self.from_zero, "from tick 0"),
            (self.running_on, "with an open pass that runs on"),
            (self.through, "within the life of a pass"),
            (self.within, "with the whole life of one"),
            (self.clicks, "with a click"),
            (self.at_last_tick, "from the last tick of a pass on"),
            (self.at_first_tick, "up to the first tick of one"),
            (self.over_32_bits, "over 32 bits"),
            (self.over_51_bits, "over 51 bits"),
            (self.nothing, "of nothing"),
            (self.by_height[1], "in a tree of time of one page"),
            (self.by_height[2], "2 pages high"),
            (self.by_height[3], "3 pages high"),
            (self.by_height[4], "4 pages high"),
            (self.below_zero, "with a constant below zero"),
            (self.pages_lack[0], "starts and ends that lack pages of their own tree alone"),
            (self.pages_lack[1], "of the tree of time alone"),
            (self.pages_lack[2], "of both"),
            (self.root_lacks[0], "that lack a root entry of their own tree alone"),
            (self.root_lacks[1], "of the tree of time alone"),
            (self.root_lacks[2], "of both"),
            (self.mixed, "that lack pages of one and a root entry of the other"),
        ]
    }
}
