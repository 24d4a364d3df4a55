//! The calls of a store, one at a time. Each returns 0 or the number of its refusal; refused, it leaves every number and word as it was.

use crate::enter::{enter, Point};
use crate::head::{
    find, fits, put, seen, take_out, whole_pages, Head, Lent, Memory, Pass, Seen, ENDS, OPEN_LIMIT, PASS_LIMIT, STARTS, TIME, WEIGHT_LIMIT,
};
use crate::lookup::{lookup, root_for, Found, Tree};
use crate::plan::{plan, Plan};
use crate::words::{birth_of, key_range, pair, row_keys, Value, KEYS, OPEN, PAGE_WORDS};

/// What a question or a lookup answers. The lookup of the tree of time has its factor in the place of the count, and its constant in that of the sum.
#[derive(Clone, Copy, Default, PartialEq, Eq, Debug)]
pub struct Totals {
    pub count: u64,
    pub sum: u64,
    pub pages: u32,
}

/// What bat-time answers.
#[derive(Clone, Copy, Default, PartialEq, Eq, Debug)]
pub struct BatTime {
    pub total: u64,
    pub pages: u32,
}

/// Makes an empty store in what is lent. The old head is not looked at.
pub fn open(head: &mut Head, lent: Lent) -> u8 {
    if lent.iter().any(|memory| memory.table.len() < PAGE_WORDS || memory.roots.is_empty()) {
        return 8;
    }
    lent.into_iter().for_each(open_tree);
    *head = Head::OPENED;
    0
}

/// Page 0, a leaf with one row of value zero over all keys, and the first root entry.
fn open_tree(Memory { table, roots }: Memory) {
    table[..PAGE_WORDS].fill(0);
    table[..6].copy_from_slice(&[0, 1, key_range(0, KEYS), 0, row_keys(0, KEYS, 0), pair(0, OPEN)]);
    roots[0] = pair(0, 0);
}

/// A pass starts. `number` becomes its number.
pub fn start(head: &mut Head, lent: Lent, tick: u32, key: u32, weight: u32, number: &mut u32) -> u8 {
    if key >= KEYS {
        return 1;
    }
    if weight < 1 || weight > WEIGHT_LIMIT {
        return 3;
    }
    if tick == OPEN {
        return 4;
    }
    if !fits(head, seen(&lent)) {
        return 20;
    }
    if tick < head.last {
        return 21;
    }
    if head.count_open >= OPEN_LIMIT {
        return 24;
    }
    if head.started >= PASS_LIMIT {
        return 25;
    }
    let refused = enter_points(head, lent, tick, key, [(STARTS, Value::of_pass(weight)), (TIME, Value::of_start(tick, weight))]);
    if refused != 0 {
        return refused;
    }
    put(head, Pass { number: head.started, key, weight, start: tick });
    *number = head.started;
    head.last = tick;
    head.started += 1;
    0
}

/// The open pass of a number ends. The tick is its last one, and may be its first: a click.
pub fn end(head: &mut Head, lent: Lent, tick: u32, number: u32) -> u8 {
    if tick == OPEN {
        return 4;
    }
    if !fits(head, seen(&lent)) {
        return 20;
    }
    if tick < head.last {
        return 21;
    }
    let Some(place) = find(head, number) else { return 22 };
    let Pass { key, weight, .. } = head.passes[place];
    let refused = enter_points(head, lent, tick, key, [(ENDS, Value::of_pass(weight)), (TIME, Value::of_end(tick, weight))]);
    if refused != 0 {
        return refused;
    }
    take_out(head, place);
    head.last = tick;
    0
}

/// 26 to 28, and else the entry of a value at a key and a tick into each of two trees. Both are planned before either is written, and a refusal of a
/// lower number comes first, whichever tree it is of.
fn enter_points(head: &mut Head, mut lent: Lent, tick: u32, key: u32, entries: [(usize, Value); 2]) -> u8 {
    let [(own, _), (time, _)] = entries;
    let plans = [own, time].map(|tree| plan(tree_of(head, seen(&lent), tree), tick, key));
    let [Some(of_own), Some(of_time)] = &plans else { return 26 };
    let planned = [(own, of_own), (time, of_time)];
    if planned.iter().any(|(tree, plan)| lacks_pages(head, &lent, *tree, plan)) {
        return 27;
    }
    if planned.iter().any(|(tree, plan)| lacks_root(head, &lent, *tree, plan, tick)) {
        return 28;
    }
    for ((tree, plan), (_, value)) in planned.into_iter().zip(entries) {
        let Memory { table, roots } = &mut lent[tree];
        enter(table, roots, &mut head.uses[tree], plan, Point { tick, key, value });
    }
    0
}

/// "27 the pages this call makes outnumber those left"
fn lacks_pages(head: &Head, lent: &Lent, tree: usize, plan: &Plan) -> bool {
    plan.made as usize > whole_pages(lent[tree].table) - head.uses[tree].pages as usize
}

/// "28 a new root entry finds the list full"
fn lacks_root(head: &Head, lent: &Lent, tree: usize, plan: &Plan, tick: u32) -> bool {
    let (list, used) = (&lent[tree].roots, head.uses[tree].roots as usize);
    plan.new_root && used == list.len() && birth_of(list[used - 1]) != tick
}

/// The refusals of a question, but for 26.
fn refuse_band(head: &Head, lent: Seen, k1: u32, k2: u32, t1: u32, t2: u32) -> u8 {
    if k1 >= KEYS || k2 > KEYS {
        return 1;
    }
    if k1 >= k2 {
        return 2;
    }
    if t1 >= t2 {
        return 5;
    }
    if !fits(head, lent) {
        return 20;
    }
    0
}

/// Count and weight sum of the passes with k1 ≤ key < k2 that live at some tick of t1 to t2 - 1, and the pages opened. A pass lives at its end
/// tick too, so those that ended before t1 are left out; before tick 0 there is none, and no page is opened for them.
pub fn question(head: &Head, lent: Seen, k1: u32, k2: u32, t1: u32, t2: u32, totals: &mut Totals) -> u8 {
    let refused = refuse_band(head, lent, k1, k2, t1, t2);
    if refused != 0 {
        return refused;
    }
    let Some(started) = before(tree_of(head, lent, STARTS), t2, k1, k2) else { return 26 };
    let Some(ended) = before(tree_of(head, lent, ENDS), t1, k1, k2) else { return 26 };
    let value = started.value.minus(ended.value);
    *totals = Totals { count: value.count, sum: value.sum, pages: started.pages + ended.pages };
    0
}

/// Weight times ticks of t1 to t2 - 1 at which a pass lives, over the passes with k1 ≤ key < k2, and the pages opened: what they lived before t2, less what
/// they lived before t1.
pub fn bat_time(head: &Head, lent: Seen, k1: u32, k2: u32, t1: u32, t2: u32, answer: &mut BatTime) -> u8 {
    let refused = refuse_band(head, lent, k1, k2, t1, t2);
    if refused != 0 {
        return refused;
    }
    let tree = tree_of(head, lent, TIME);
    let Some(later) = before(tree, t2, k1, k2) else { return 26 };
    let Some(earlier) = before(tree, t1, k1, k2) else { return 26 };
    let lived = |found: Found, t: u32| found.value.at(t.saturating_sub(1));
    *answer = BatTime { total: lived(later, t2).wrapping_sub(lived(earlier, t1)), pages: later.pages + earlier.pages };
    0
}

/// A tree's points before tick t with a key from k1 up to but not k2. Before tick 0 there is none, and no page is opened.
fn before(tree: Tree, t: u32, k1: u32, k2: u32) -> Option<Found> {
    match t.checked_sub(1) {
        Some(last) => between(tree, last, k1, k2),
        None => Some(Found::default()),
    }
}

/// A tree's points with tick ≤ t and a key from k1 up to but not k2. With k1 = 0 the second lookup is not made.
fn between(tree: Tree, t: u32, k1: u32, k2: u32) -> Option<Found> {
    let root = root_for(tree, t)?;
    let high = lookup(tree, root, t, k2 - 1)?;
    if k1 == 0 {
        return Some(high);
    }
    let low = lookup(tree, root, t, k1 - 1)?;
    Some(Found { value: high.value.minus(low.value), pages: high.pages + low.pages })
}

/// The lookup of a tree.
pub fn look_up(head: &Head, lent: Seen, tree: usize, t: u32, k: u32, totals: &mut Totals) -> u8 {
    if k >= KEYS {
        return 1;
    }
    if t == OPEN {
        return 4;
    }
    if !fits(head, lent) {
        return 20;
    }
    let tree = tree_of(head, lent, tree);
    let Some(found) = root_for(tree, t).and_then(|root| lookup(tree, root, t, k)) else { return 26 };
    *totals = Totals { count: found.value.count, sum: found.value.sum, pages: found.pages };
    0
}

/// A tree of a head that fits.
fn tree_of<'a>(head: &Head, lent: Seen<'a>, tree: usize) -> Tree<'a> {
    let used = head.uses[tree];
    Tree { table: lent[tree].table, roots: &lent[tree].roots[..used.roots as usize], pages: used.pages }
}
