//! Entering a planned point into one tree: document 01, "Entering a point", steps 2 to 8.

use crate::head::TreeUse;
use crate::page::{row_start, value_at, Entry, Order};
use crate::plan::{Plan, Step};
use crate::words::{
    birth_of, high_key, key_range, low_key, page_of, page_of_mut, pair, row_keys, upper_half, Value, APPENDED, COPIED, HEADER_WORDS, KEYS,
    OPEN, PAGE_WORDS, ROW_WORDS,
};

/// A point: a tick, a key, a value.
#[derive(Clone, Copy)]
pub struct Point {
    pub tick: u32,
    pub key: u32,
    pub value: Value,
}

/// A new page, and the keys that it covers.
#[derive(Clone, Copy)]
struct Child {
    page: u32,
    low: u32,
    high: u32,
}

/// What a page became.
#[derive(Clone, Copy)]
enum Became {
    Stays,
    Copied(Child),
    Halved(Child, Child),
}

/// The words of a page, and room for the rows that one entry may append.
const COPY_WORDS: usize = PAGE_WORDS + ROW_WORDS * APPENDED;

/// Enters a point that was planned, and for which there are pages and a root entry left. `used` are the pages and the root entries in use, before
/// the call and after it.
pub fn enter(table: &mut [u64], roots: &mut [u64], used: &mut TreeUse, plan: &Plan, point: Point) {
    let TreeUse { pages, roots: roots_used } = used;
    let mut below = Became::Stays;
    for step in plan.steps().iter().rev() {
        if step.parts == 0 {
            edit(page_of_mut(table, step.page), step, below, point);
            below = Became::Stays;
        } else {
            // The page that overflows keeps its words: what goes to new pages is an edited copy.
            let mut copy = [0u64; COPY_WORDS];
            copy[..PAGE_WORDS].copy_from_slice(page_of(table, step.page));
            edit(&mut copy, step, below, point);
            below = split(table, pages, &copy, point.tick);
        }
    }
    let root = match below {
        Became::Stays => return,
        Became::Copied(child) => child.page,
        Became::Halved(lower, upper) => put_two_row_root(table, pages, plan.steps()[0].level + 1, lower, upper, point.tick),
    };
    put_root(roots, roots_used, root, point.tick);
}

/// The rows of one page: step 2, or else step 3, and step 7 above a page whose rows went to new pages.
fn edit(words: &mut [u64], step: &Step, below: Became, point: Point) {
    let t = point.tick;
    match step.inner {
        Some(place) if step.level == 0 => {
            let at = row_start(place);
            let keys = words[at];
            replace(words, place, row_keys(low_key(keys), point.key, upper_half(keys)), value_at(words, place), t);
            append(words, row_keys(point.key, high_key(keys), 0), t, point.value);
        }
        inner => {
            if let Some(place) = step.gain {
                replace(words, place, words[row_start(place)], value_at(words, place).plus(point.value), t);
            }
            if let Some(place) = inner {
                relink(words, place, below, t);
            }
        }
    }
}

/// Step 7: the row for a page that overflowed leads to the new page; a second one gets a row of value zero.
fn relink(words: &mut [u64], place: usize, below: Became, t: u32) {
    let (Became::Copied(child) | Became::Halved(child, _)) = below else { return };
    replace(words, place, row_keys(child.low, child.high, child.page), value_at(words, place), t);
    if let Became::Halved(_, second) = below {
        append(words, row_keys(second.low, second.high, second.page), t, Value::default());
    }
}

/// Step 4: a row born at t is altered where it is; any other ends at t, and what it becomes is appended.
fn replace(words: &mut [u64], place: usize, keys: u64, value: Value, t: u32) {
    let at = row_start(place);
    let birth = birth_of(words[at + 1]);
    if birth == t {
        words[at] = keys;
        words[at + 2] = value.count;
        words[at + 3] = value.sum;
    } else {
        words[at + 1] = pair(birth, t);
        append(words, keys, t, value);
    }
}

/// One row more, born at t and open.
fn append(words: &mut [u64], keys: u64, t: u32, value: Value) {
    let rows = words[1];
    let at = row_start(rows as usize);
    words[at..at + ROW_WORDS].copy_from_slice(&[keys, pair(t, OPEN), value.count, value.sum]);
    words[1] = rows + 1;
}

/// Steps 5 and 6: the live rows of an edited copy go to one new page or to two.
fn split(table: &mut [u64], pages: &mut u32, copy: &[u64; COPY_WORDS], t: u32) -> Became {
    let order = Order::of(copy, copy[1] as usize, t);
    let (low, high) = (low_key(copy[2]), high_key(copy[2]));
    let count = order.count();
    if count <= COPIED {
        let child = Child { page: *pages, low, high };
        put_page(table, pages, copy, order.rows(), child, Value::default(), t);
        return Became::Copied(child);
    }
    let half = count - count / 2;
    let middle = order.rows().nth(half).map_or(high, |row| row.low);
    let lower = Child { page: *pages, low, high: middle };
    let upper = Child { page: *pages + 1, low: middle, high };
    let total = order.rows().take(half).fold(Value::default(), |sum, row| sum.plus(value_at(copy, row.place)));
    put_page(table, pages, copy, order.rows().take(half), lower, Value::default(), t);
    put_page(table, pages, copy, order.rows().skip(half), upper, total, t);
    Became::Halved(lower, upper)
}

/// Writes a whole page of these rows, each born at t and open; the first one gains a value.
fn put_page(
    table: &mut [u64],
    pages: &mut u32,
    copy: &[u64; COPY_WORDS],
    rows: impl ExactSizeIterator<Item = Entry>,
    child: Child,
    gain: Value,
    t: u32,
) {
    let page = page_of_mut(table, *pages);
    let count = rows.len();
    page[..HEADER_WORDS].copy_from_slice(&[copy[0], count as u64, key_range(child.low, child.high), t as u64]);
    for (words, row) in page[HEADER_WORDS..].chunks_exact_mut(ROW_WORDS).zip(rows) {
        let from = row_start(row.place);
        words.copy_from_slice(&[copy[from], pair(t, OPEN), copy[from + 2], copy[from + 3]]);
    }
    page[row_start(count)..].fill(0);
    let first = value_at(page, 0).plus(gain);
    page[row_start(0) + 2] = first.count;
    page[row_start(0) + 3] = first.sum;
    *pages += 1;
}

/// "Two halves get a new root one level up, two rows of value zero."
fn put_two_row_root(table: &mut [u64], pages: &mut u32, level: u64, lower: Child, upper: Child, t: u32) -> u32 {
    let number = *pages;
    let page = page_of_mut(table, number);
    page[..HEADER_WORDS].copy_from_slice(&[level, 0, key_range(0, KEYS), t as u64]);
    append(page, row_keys(0, lower.high, lower.page), t, Value::default());
    append(page, row_keys(lower.high, KEYS, upper.page), t, Value::default());
    page[row_start(2)..].fill(0);
    *pages += 1;
    number
}

/// Step 8: an entry more, or the last one replaced if that was born at t.
fn put_root(roots: &mut [u64], used: &mut u32, page: u32, t: u32) {
    if birth_of(roots[*used as usize - 1]) != t {
        *used += 1;
    }
    roots[*used as usize - 1] = pair(t, page);
}
