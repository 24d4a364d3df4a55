//! The head, what is lent with it, refusal 20, and the open passes.

use crate::words::{KEYS, PAGE_LIMIT, PAGE_WORDS};

pub const OPEN_LIMIT: u32 = 64;
const PLACES: usize = OPEN_LIMIT as usize;
pub const PASS_LIMIT: u32 = 1_000_000;
pub const WEIGHT_LIMIT: u32 = 10_000;

/// The trees of a store, by their places in the head and among what is lent.
pub const TREES: usize = 3;
pub const STARTS: usize = 0;
pub const ENDS: usize = 1;
pub const TIME: usize = 2;

/// The pages and the root entries that a tree uses.
#[repr(C)]
#[derive(Clone, Copy, Default, PartialEq, Eq, Debug)]
pub struct TreeUse {
    pub pages: u32,
    pub roots: u32,
}

/// An open pass. In an unused place all four are zero.
#[repr(C)]
#[derive(Clone, Copy, Default, PartialEq, Eq, Debug)]
pub struct Pass {
    pub number: u32,
    pub key: u32,
    pub weight: u32,
    pub start: u32,
}

/// The head, in the order in which its numbers stand in the array that C lends: that array is a head, whatever its numbers are.
#[repr(C)]
#[derive(Clone, Copy, PartialEq, Eq, Debug)]
pub struct Head {
    pub last: u32,
    pub started: u32,
    pub count_open: u32,
    pub uses: [TreeUse; TREES],
    pub passes: [Pass; PLACES],
}

/// Numbers of a head: three, two for each tree, and four for each place of an open pass.
pub const HEAD_NUMBERS: usize = 265;

const _: () = assert!(size_of::<Head>() == HEAD_NUMBERS * size_of::<u32>());

impl Head {
    /// All numbers zero, which no store has.
    pub const ZERO: Head = Head {
        last: 0,
        started: 0,
        count_open: 0,
        uses: [TreeUse { pages: 0, roots: 0 }; TREES],
        passes: [Pass { number: 0, key: 0, weight: 0, start: 0 }; PLACES],
    };

    /// The head of a store that was just opened.
    pub const OPENED: Head = Head { uses: [TreeUse { pages: 1, roots: 1 }; TREES], ..Head::ZERO };
}

/// The page table and the root list of a tree, lent to a call that may write.
pub struct Memory<'a> {
    pub table: &'a mut [u64],
    pub roots: &'a mut [u64],
}

/// The same, lent to a call that only reads.
#[derive(Clone, Copy)]
pub struct Shown<'a> {
    pub table: &'a [u64],
    pub roots: &'a [u64],
}

/// What is lent to a call beside the head: the memory of each tree.
pub type Lent<'a> = [Memory<'a>; TREES];
pub type Seen<'a> = [Shown<'a>; TREES];

/// The same memory lent on, to one call of several.
pub fn lent_on<'a>(lent: &'a mut Lent) -> Lent<'a> {
    lent.each_mut().map(|memory| Memory { table: memory.table, roots: memory.roots })
}

/// The same memory for a call that only reads.
pub fn seen<'a>(lent: &'a Lent) -> Seen<'a> {
    lent.each_ref().map(|memory| Shown { table: memory.table, roots: memory.roots })
}

/// The pages that a tree may use in a table.
pub fn whole_pages(table: &[u64]) -> usize {
    (table.len() / PAGE_WORDS).min(PAGE_LIMIT)
}

/// No ground for 20.
pub fn fits(head: &Head, lent: Seen) -> bool {
    head.count_open <= OPEN_LIMIT
        && head.started <= PASS_LIMIT
        && head.uses.iter().zip(lent).all(|(used, memory)| use_fits(used, memory))
        && passes_fit(head)
}

fn use_fits(used: &TreeUse, memory: Shown) -> bool {
    let (pages, roots) = (used.pages as usize, used.roots as usize);
    1 <= pages && 1 <= roots && pages <= whole_pages(memory.table) && roots <= pages && roots <= memory.roots.len()
}

/// Only the places below the open count are judged.
fn passes_fit(head: &Head) -> bool {
    let mut least = 0;
    for pass in &head.passes[..head.count_open as usize] {
        let possible = pass.key < KEYS && 1 <= pass.weight && pass.weight <= WEIGHT_LIMIT && pass.start <= head.last;
        if pass.number < least || head.started <= pass.number || !possible {
            return false;
        }
        least = pass.number + 1;
    }
    true
}

/// The place of the open pass of a number.
pub fn find(head: &Head, number: u32) -> Option<usize> {
    head.passes[..head.count_open as usize].iter().position(|pass| pass.number == number)
}

/// Puts a pass behind the open ones.
pub fn put(head: &mut Head, pass: Pass) {
    head.passes[head.count_open as usize] = pass;
    head.count_open += 1;
}

/// "Ending a pass closes up the list and zeroes the place set free."
pub fn take_out(head: &mut Head, place: usize) {
    let open = head.count_open as usize;
    head.passes.copy_within(place + 1..open, place);
    head.passes[open - 1] = Pass::default();
    head.count_open -= 1;
}
