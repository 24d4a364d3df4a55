//! The lookup of one tree.

use crate::page::{row_start, tested, value_at};
use crate::words::{birth_of, page_of, upper_half, Value, KEYS, TOP_LEVEL};

/// A tree as it is read: its page table, the root entries in use, and the pages in use.
#[derive(Clone, Copy)]
pub struct Tree<'a> {
    pub table: &'a [u64],
    pub roots: &'a [u64],
    pub pages: u32,
}

/// A root: its page and level.
#[derive(Clone, Copy)]
pub struct Root {
    pub page: u32,
    pub level: u64,
}

#[derive(Clone, Copy, Default)]
pub struct Found {
    pub value: Value,
    pub pages: u32,
}

/// Entries that are looked at together, so that the compiler compares several at once.
const STRIDE: usize = 16;

/// "The root for tick t is the entry in the highest place with birth ≤ t." The births of a spoiled list need not rise, so a search by
/// halves would be wrong. Nothing where there is no such entry, its page is not in use or its level is above 3.
pub fn root_for(tree: Tree, t: u32) -> Option<Root> {
    let born = |entry: &u64| birth_of(*entry) <= t;
    let mut end = tree.roots.len();
    while end >= STRIDE && !tree.roots[end - STRIDE..end].iter().fold(false, |any, entry| any | born(entry)) {
        end -= STRIDE;
    }
    let at = tree.roots[..end].iter().rposition(born)?;
    let page = upper_half(tree.roots[at]);
    if page >= tree.pages {
        return None;
    }
    let level = page_of(tree.table, page)[0];
    (level <= TOP_LEVEL).then_some(Root { page, level })
}

/// The points with tick ≤ t and key ≤ k, from the root for t down; nothing where a spoiled page is met.
pub fn lookup(tree: Tree, root: Root, t: u32, k: u32) -> Option<Found> {
    let mut found = Found::default();
    let (mut number, mut level, mut low, mut high) = (root.page, root.level, 0, KEYS);
    loop {
        if number >= tree.pages {
            return None;
        }
        let page = page_of(tree.table, number);
        let order = tested(page, level, low, high, t)?;
        // A tested page holds each key of its range once, and k is in the range.
        let held = order.rows().find(|row| (row.low <= k) & (k < row.high))?;
        // The true value: the row's own, and those of the live rows with a lower low key.
        found.value = found.value.plus(value_at(page, held.place));
        for row in order.rows().take_while(|row| row.low < held.low) {
            found.value = found.value.plus(value_at(page, row.place));
        }
        found.pages += 1;
        if level == 0 {
            return Some(found);
        }
        (number, level, low, high) = (upper_half(page[row_start(held.place)]), level - 1, held.low, held.high);
    }
}
