//! What the words of a grown store say: paths, heights, and the room that an entry lacks.

use crate::library::{by_library, Answer, Call, Store, PAGE_WORDS};
use port::{ENDS, STARTS, TIME};
use std::collections::BTreeSet;

/// One tree of a store, as its words say.
pub struct Tree<'a> {
    table: &'a [u64],
    list: &'a [u64],
    pages: u32,
    roots: u32,
}

impl Tree<'_> {
    pub fn of(store: &Store, tree: usize) -> Tree<'_> {
        let (slices, used) = (&store.trees[tree], store.head.uses[tree]);
        Tree { table: &slices.table, list: &slices.roots, pages: used.pages, roots: used.roots }
    }

    fn left(&self) -> u32 {
        (self.table.len() / PAGE_WORDS) as u32 - self.pages
    }

    /// The pages on the path of (t, k): "the root for t, then from each page above level 0 the child of the row that is live at t and has
    /// low key ≤ k < high key".
    fn path(&self, t: u32, k: u32) -> u32 {
        let root = self.list[..self.roots as usize].iter().rfind(|&&entry| entry as u32 <= t).unwrap();
        let (mut page, mut pages) = ((root >> 32) as usize, 1);
        loop {
            let words = &self.table[PAGE_WORDS * page..][..PAGE_WORDS];
            if words[0] == 0 {
                return pages;
            }
            let row = words[4..].chunks(4).take(words[1] as usize).find(|row| {
                let (low, high, birth, end) = (row[0] as u16 as u32, (row[0] >> 16) as u16 as u32, row[1] as u32, (row[1] >> 32) as u32);
                birth <= t && t < end && low <= k && k < high
            });
            page = (row.unwrap()[0] >> 32) as usize;
            pages += 1;
        }
    }

    /// "A tree is as many pages high as the level of its last root plus 1."
    pub fn height(&self) -> u32 {
        let page = (self.list[self.roots as usize - 1] >> 32) as usize;
        self.table[PAGE_WORDS * page] as u32 + 1
    }

    /// A tree h > 1 pages high took at least 2 × 20^(h-1) - 1 different keys above zero; one that took n points uses at most 4 + 4n/9 pages.
    pub fn keeps_bounds(&self, keys: &[u32]) -> bool {
        let different: BTreeSet<u32> = keys.iter().copied().filter(|&key| key > 0).collect();
        let height = self.height();
        (height == 1 || different.len() as u32 + 1 >= 2 * 20u32.pow(height - 1)) && self.pages as usize <= 4 + 4 * keys.len() / 9
    }
}

/// Puts the pages that a question, a bat-time or a lookup opens into its answer.
pub fn put_pages(store: &Store, call: Call, answer: &mut Answer) {
    // The lookups of a band and an interval: in one tree before t2, in another or the same before t1.
    let opened = |later: usize, earlier: usize, k1: u32, k2: u32, t1: u32, t2: u32| {
        let before = |tree: usize, t: u32, k: u32| if t == 0 || k == 0 { 0 } else { Tree::of(store, tree).path(t - 1, k - 1) };
        before(later, t2, k2) + before(earlier, t1, k2) + before(later, t2, k1) + before(earlier, t1, k1)
    };
    match call {
        Call::Question { k1, k2, t1, t2 } => answer.totals.pages = opened(STARTS, ENDS, k1, k2, t1, t2),
        Call::BatTime { k1, k2, t1, t2 } => answer.time.pages = opened(TIME, TIME, k1, k2, t1, t2),
        Call::Lookup { tree, t, k } => answer.totals.pages = Tree::of(store, tree).path(t, k),
        Call::Open | Call::Start { .. } | Call::End { .. } => (),
    }
}

/// What a start or an end lacks in a tree that it writes.
#[derive(Clone, Copy)]
pub struct Lack {
    pub pages: bool,
    pub root: bool,
}

/// What a start or an end lacks in the tree of its own and in that of time. With more room it is accepted, and shows how many pages and root entries it
/// makes; nothing where it is refused even so.
pub fn lacks(store: &Store, call: Call) -> Option<[Lack; 2]> {
    let mut roomy = store.clone();
    for slices in &mut roomy.trees {
        let whole = slices.table.len() / PAGE_WORDS;
        slices.table.truncate(PAGE_WORDS * whole);
        slices.table.resize(PAGE_WORDS * (whole + 7), 0);
        slices.roots.push(0);
    }
    if by_library(&mut roomy, call).refusal != 0 {
        return None;
    }
    let own = if matches!(call, Call::Start { .. }) { STARTS } else { ENDS };
    Some([own, TIME].map(|tree| {
        let (before, after) = (Tree::of(store, tree), Tree::of(&roomy, tree));
        Lack { pages: after.pages - before.pages > before.left(), root: after.roots > before.roots && before.roots as usize == before.list.len() }
    }))
}

/// Whether 27 or 28 was the right refusal: 27 where pages lack in any of the two trees, and else 28 where a root entry does.
pub fn is_right(lacks: Option<[Lack; 2]>, refusal: u8) -> bool {
    lacks.is_some_and(|lacks| {
        let (pages, root) = (lacks.iter().any(|lack| lack.pages), lacks.iter().any(|lack| lack.root));
        refusal == 27 && pages || refusal == 28 && !pages && root
    })
}
