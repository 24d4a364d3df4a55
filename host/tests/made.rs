//! Stores for the test of spoiled memory: grown ones, ones with random trees that no history grows, and ways to spoil them.

use crate::library::{by_port, Call, Random, Slices, Store, PAGE_WORDS};
use crate::shapes::{any_tree, Shape};
use port::{Pass, TreeUse, TIME};

/// A store grown by a random history. In some of them the tree of time, which takes the points of both others, has twice their pages.
pub fn grown(random: &mut Random) -> Store {
    let pages = *random.pick(&[2, 4, 6, 9, 10, 20, 40]);
    let roots = if random.one_in(3) { random.between(1, pages) } else { pages };
    let mut store = Store::lent(pages as usize, roots as usize);
    if random.one_in(2) {
        store.trees[TIME] = Slices::lent(2 * pages as usize, if random.one_in(3) { roots } else { 2 * pages } as usize);
    }
    let mut shape = Shape::any(random);
    by_port(&mut store, Call::Open);
    for _ in 0..random.below(30 * pages) {
        let open = store.open_numbers();
        let call = shape.call(random, store.head.last, store.head.started, &open);
        by_port(&mut store, call);
    }
    store
}

/// A store with three random trees. Their pages pass the test of refusal 26 at the last tick, mostly, but have what no history grows: rows in any
/// order, beside the range or hanging over it, of lives that make no sense, and pages full to the last row.
pub fn random_trees(random: &mut Random) -> Store {
    let pages = random.between(10, 30);
    let mut store = Store::lent(pages as usize, 4);
    let t = *random.pick(&[0, 1, 1_000, u32::MAX - 2, u32::MAX - 1]);
    store.head.last = t;
    store.head.started = random.between(3, 1_000_000);
    store.head.count_open = random.below(4);
    for number in 0..store.head.count_open {
        let start = if random.one_in(3) { t } else { random.between(0, t) };
        store.head.passes[number as usize] = Pass { number, key: random.below(30_000), weight: random.between(1, 10_000), start };
    }
    for (slices, used) in store.trees.iter_mut().zip(&mut store.head.uses) {
        *used = random_tree(random, slices, t);
    }
    store
}

/// A store in which each tree is one leaf, full to the last row and mostly sound, so that every entry makes pages and a root entry: each tree has room
/// for them, or lacks pages, or a place in its root list.
pub fn crowded(random: &mut Random) -> Store {
    let mut store = Store::lent(1, 1);
    by_port(&mut store, Call::Open);
    let numbers = 0..3;
    store.head.started = numbers.end;
    store.head.count_open = numbers.end;
    for number in numbers {
        store.head.passes[number as usize] = Pass { number, key: random.below(30_000), weight: random.between(1, 10_000), start: 0 };
    }
    store.head.last = random.between(1, 1_000);
    for slices in &mut store.trees {
        *slices = Slices::lent(random.between(1, 5) as usize, random.between(1, 2) as usize);
        let rows = if random.one_in(4) { 65 } else { 64 };
        slices.table[..4].copy_from_slice(&[0, rows, 30_000 << 16, 0]);
        for (place, row) in slices.table[4..PAGE_WORDS].chunks_exact_mut(4).enumerate() {
            let (low, high) = (400 * place as u32, if place == 63 { 30_000 } else { 400 * place as u32 + 400 });
            row.copy_from_slice(&live_row(random, low, high, 0, 0));
        }
    }
    store
}

/// Leaves as many pages as an entry may make, or fewer. Returns the pages and the roots used.
fn random_tree(random: &mut Random, Slices { table, roots: list }: &mut Slices, t: u32) -> TreeUse {
    let left = if random.one_in(4) { random.below(7) } else { 9 };
    let limit = (table.len() / PAGE_WORDS) as u32 - left;
    let mut used = 0;
    let level = random.below(4) as u64;
    let root = random_page(random, table, &mut used, limit, level, 0, 30_000, t);
    let roots = random.between(1, (list.len() as u32).min(used));
    for entry in list.iter_mut() {
        *entry = random.between(0, t) as u64 | (random.below(used + 1) as u64) << 32;
    }
    let birth = *random.pick(&[0, t, t / 2]);
    list[roots as usize - 1] = birth as u64 | (root as u64) << 32;
    TreeUse { pages: used, roots }
}

/// Writes a page over a key range, and pages below some of its rows, while there is room. Returns its number.
fn random_page(random: &mut Random, table: &mut [u64], used: &mut u32, limit: u32, level: u64, low: u32, high: u32, t: u32) -> u32 {
    let number = *used;
    *used += 1;
    let count = *random.pick(&[1, 2, 3, 10, 30, 39, 40, 41, 60, 63, 64]);
    let mut cuts: Vec<u32> = (1..count).map(|_| random.between(low, high)).filter(|&cut| low < cut && cut < high).collect();
    cuts.sort_unstable();
    cuts.dedup();
    cuts.insert(0, low);
    cuts.push(high);
    let mut rows: Vec<[u64; 4]> = Vec::new();
    let inner = cuts.len() - 1;
    for (at, ends) in cuts.windows(2).enumerate() {
        let (mut from, mut to) = (ends[0], ends[1]);
        if at == 0 && random.one_in(6) {
            from = random.between(0, from);
        }
        if at + 1 == inner && random.one_in(6) {
            to = random.between(to, 65_535);
        }
        let built = level > 0 && *used < limit && random.one_in(1 + inner as u32 / 3);
        let child = if built {
            random_page(random, table, used, limit, level - 1, from, to, t)
        } else if level > 0 {
            random.below(limit + 2)
        } else {
            random.below(2) * random.below(9)
        };
        rows.push(live_row(random, from, to, child, t));
    }
    let full = random.one_in(2);
    while rows.len() < 64 && (full || !random.one_in(8)) {
        let row = if random.one_in(3) { row_beside(random, low, high, t) } else { row_not_live(random, t) };
        rows.push(row);
        if random.one_in(4) {
            let (one, other) = (random.below(rows.len() as u32) as usize, random.below(rows.len() as u32) as usize);
            rows.swap(one, other);
        }
    }
    let words = &mut table[PAGE_WORDS * number as usize..][..PAGE_WORDS];
    for word in words.iter_mut() {
        *word = random.word();
    }
    words[..4].copy_from_slice(&[level, rows.len() as u64, low as u64 | (high as u64) << 16, random.word()]);
    for (row, place) in rows.iter().zip(words[4..].chunks_exact_mut(4)) {
        place.copy_from_slice(row);
    }
    number
}

fn live_row(random: &mut Random, low: u32, high: u32, child: u32, t: u32) -> [u64; 4] {
    let birth = if random.one_in(3) { t } else { random.between(0, t) };
    let end = if random.one_in(8) { random.between(t + 1, u32::MAX) } else { u32::MAX };
    let value = if random.one_in(2) { [1, 100] } else { [random.word(), random.word()] };
    [low as u64 | (high as u64) << 16 | (child as u64) << 32, birth as u64 | (end as u64) << 32, value[0], value[1]]
}

/// A live row beside the key range; there is none beside a range over all keys.
fn row_beside(random: &mut Random, low: u32, high: u32, t: u32) -> [u64; 4] {
    let (from, to) = if low > 0 && random.one_in(2) { (0, low) } else { (high, 65_535) };
    let cut = random.between(from, to - 1);
    let row_high = random.between(cut + 1, to);
    live_row(random, cut, row_high, 0, t)
}

fn row_not_live(random: &mut Random, t: u32) -> [u64; 4] {
    let life = if random.one_in(2) {
        random.between(0, t) as u64 | (random.between(0, t) as u64) << 32
    } else {
        random.between(t + 1, u32::MAX) as u64 | (random.word() >> 32) << 32
    };
    [random.word(), life, random.word(), random.word()]
}

/// Spoils a store in one of many ways.
pub fn spoil(random: &mut Random, store: &mut Store) {
    match random.below(24) {
        0 => random_words(random, store),
        1 => whole_page(random, store),
        2..=7 => flip_bit(random, store),
        8 => swap_pages(random, store),
        9..=11 => spoil_roots(random, store),
        12..=16 => spoil_row(random, store),
        17 => spoil_header(random, store),
        18..=20 => add_row(random, store),
        21 => spoil_head(random, store),
        22 => spoil_passes(random, store),
        _ => cut_memory(random, store),
    }
}

/// One of the trees: its table, its list, its pages used and its roots used.
fn tree<'a>(random: &mut Random, store: &'a mut Store) -> (&'a mut Vec<u64>, &'a mut Vec<u64>, &'a mut u32, &'a mut u32) {
    let tree = any_tree(random);
    let (Slices { table, roots: list }, TreeUse { pages, roots }) = (&mut store.trees[tree], &mut store.head.uses[tree]);
    (table, list, pages, roots)
}

/// The words of a page, of one in use mostly.
fn page<'a>(random: &mut Random, store: &'a mut Store) -> Option<&'a mut [u64]> {
    let (table, _, pages, _) = tree(random, store);
    let whole = (table.len() / PAGE_WORDS) as u32;
    let limit = if random.one_in(10) { whole } else { whole.min(*pages) };
    let number = random.below(limit) as usize;
    table.get_mut(PAGE_WORDS * number..PAGE_WORDS * (number + 1))
}

/// The words of a row in use.
fn row<'a>(random: &mut Random, page: &'a mut [u64]) -> &'a mut [u64] {
    let place = random.below(page[1].clamp(1, 64) as u32) as usize;
    &mut page[4 + 4 * place..][..4]
}

fn random_words(random: &mut Random, store: &mut Store) {
    for _ in 0..random.between(1, 20) {
        if let Some(page) = page(random, store) {
            page[random.below(PAGE_WORDS as u32) as usize] = random.word();
        }
    }
}

fn whole_page(random: &mut Random, store: &mut Store) {
    if let Some(page) = page(random, store) {
        for word in page {
            *word = random.word();
        }
    }
}

fn flip_bit(random: &mut Random, store: &mut Store) {
    if let Some(page) = page(random, store) {
        let header = random.one_in(6);
        let word = if header { &mut page[random.below(4) as usize] } else { &mut row(random, page)[random.below(4) as usize] };
        *word ^= 1 << random.below(64);
    }
}

fn swap_pages(random: &mut Random, store: &mut Store) {
    let (table, _, pages, _) = tree(random, store);
    let (one, other) = (random.below(*pages) as usize, random.below(*pages) as usize);
    if PAGE_WORDS * (one.max(other) + 1) <= table.len() {
        for word in 0..PAGE_WORDS {
            table.swap(PAGE_WORDS * one + word, PAGE_WORDS * other + word);
        }
    }
}

fn spoil_roots(random: &mut Random, store: &mut Store) {
    let last = store.head.last;
    let (_, list, pages, roots) = tree(random, store);
    let used = (*roots).clamp(1, list.len().max(1) as u32);
    match random.below(6) {
        0 => *roots = random.below(used),
        1 => *roots = random.between(used, list.len() as u32 + 1),
        2 => *pages = random.below(*pages + 1),
        _ if list.is_empty() => (),
        3 => list[random.below(used) as usize] = random.word(),
        4 => list.swap(random.below(used) as usize, random.below(used) as usize),
        _ => {
            let birth = *random.pick(&[0, last, last.saturating_add(1), u32::MAX]);
            list[random.below(used) as usize] = birth as u64 | (random.below(*pages + 1) as u64) << 32;
        }
    }
}

fn spoil_row(random: &mut Random, store: &mut Store) {
    let last = store.head.last;
    let Some(page) = page(random, store) else { return };
    let other = row(random, page)[0];
    let row = row(random, page);
    let (low, high, birth) = (row[0] & 0xffff, row[0] >> 16 & 0xffff, row[1] & 0xffff_ffff);
    let tick = *random.pick(&[0, last, last.saturating_add(1), last.saturating_sub(1), u32::MAX]) as u64;
    match random.below(7) {
        0 => row[0] = row[0] & !0xffff | low.wrapping_add(random.word() % 5).wrapping_sub(2) & 0xffff,
        1 => row[0] = row[0] & !0xffff_0000 | (high.wrapping_add(random.word() % 5).wrapping_sub(2) & 0xffff) << 16,
        2 => row[0] = row[0] & 0xffff_ffff | (random.word() % 50) << 32,
        3 => row[1] = birth | tick << 32,
        4 => row[1] = tick | (row[1] >> 32) << 32,
        5 => row[0] = other,
        _ => row[2 + random.below(2) as usize] = random.word(),
    }
}

fn spoil_header(random: &mut Random, store: &mut Store) {
    let Some(page) = page(random, store) else { return };
    match random.below(5) {
        0 => page[0] = random.below(6) as u64,
        1 => page[1] = *random.pick(&[0, 1, 63, 64, 65, 66, u64::MAX, 1 << 32]),
        2 => page[1] = page[1].wrapping_add(1),
        3 => page[2] = page[2].wrapping_add(random.word() % 3).wrapping_sub(1),
        _ => page[3] = random.word(),
    }
}

/// A live row more, beside the page's range or over a part of it.
fn add_row(random: &mut Random, store: &mut Store) {
    let t = store.head.last.min(u32::MAX - 1);
    let Some(page) = page(random, store) else { return };
    let (low, high) = (page[2] as u16 as u32, (page[2] >> 16) as u16 as u32);
    if page[1] < 64 && low < high {
        let row = if random.one_in(4) { live_row(random, low, high, 0, t) } else { row_beside(random, low, high.min(65_534), t) };
        let at = 4 + 4 * page[1] as usize;
        page[at..at + 4].copy_from_slice(&row);
        page[1] += 1;
    }
}

fn spoil_head(random: &mut Random, store: &mut Store) {
    let head = &mut store.head;
    let number = *random.pick(&[0, 1, 2, 63, 64, 65, 999_999, 1_000_000, 1_000_001, u32::MAX - 1, u32::MAX]);
    match random.below(10) {
        0 => head.last = number,
        1 => head.started = number,
        2 => head.count_open = number,
        3..=5 => head.uses[any_tree(random)].pages = number,
        6..=8 => head.uses[any_tree(random)].roots = number,
        _ => head.last = head.last.saturating_sub(random.below(50)),
    }
}

fn spoil_passes(random: &mut Random, store: &mut Store) {
    let places = if random.one_in(4) { 64 } else { store.head.count_open.clamp(1, 64) };
    let number = *random.pick(&[0, 1, 29_999, 30_000, 10_000, 10_001, store.head.last, u32::MAX]);
    let pass = &mut store.head.passes[random.below(places) as usize];
    match random.below(4) {
        0 => pass.number = number,
        1 => pass.key = number,
        2 => pass.weight = number,
        _ => pass.start = number,
    }
}

/// Shorter slices than the head says, or words past the last whole page.
fn cut_memory(random: &mut Random, store: &mut Store) {
    let (table, list, pages, roots) = tree(random, store);
    let length = *random.pick(&[0, 1, *roots as usize, *roots as usize + 1]);
    match random.below(3) {
        0 => list.resize(length.min(1_000), 7),
        1 => table.truncate((PAGE_WORDS * (*pages).min(100) as usize).saturating_sub(random.below(2) as usize)),
        _ => table.resize(table.len() + random.below(300) as usize, 7),
    }
}
