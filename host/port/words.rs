//! Words that hold several numbers, and the numbers of document 01.

/// Words of a page: 4 of its header and 64 rows of 4.
pub const PAGE_WORDS: usize = 260;
pub const HEADER_WORDS: usize = 4;
pub const ROW_WORDS: usize = 4;

/// Rows that a page holds.
pub const ROWS: usize = 64;

/// Rows that an entry may append to one page: step 3's, and step 7's two.
pub const APPENDED: usize = 3;

/// Live rows that one new page takes; more go to two pages.
pub const COPIED: usize = 40;

/// Keys are below this number, and it is the end of a root's key range.
pub const KEYS: u32 = 30_000;

/// The end of an open row, and the one number of 32 bits that is no tick.
pub const OPEN: u32 = u32::MAX;

/// The highest level of a page.
pub const TOP_LEVEL: u64 = 3;

/// The pages that a tree may use.
pub const PAGE_LIMIT: usize = 1_000_000;

/// The words of one page.
pub type Page = [u64; PAGE_WORDS];

/// What a row or a point carries in its last two words, each modulo 2^64: a count and a weight sum. In the tree of time they are a line over ticks: the
/// factor of the tick, in the place of the count, and the constant.
#[derive(Clone, Copy, Default)]
pub struct Value {
    pub count: u64,
    pub sum: u64,
}

impl Value {
    /// What a pass gives to the trees of starts and of ends.
    pub fn of_pass(weight: u32) -> Value {
        Value { count: 1, sum: weight as u64 }
    }

    /// What a start gives to the tree of time: from its tick on the weight counts for each tick, that tick included.
    pub fn of_start(tick: u32, weight: u32) -> Value {
        let weight = weight as u64;
        Value { count: weight, sum: weight.wrapping_sub(weight * tick as u64) }
    }

    /// What an end gives to it: after its tick the weight counts no more.
    pub fn of_end(tick: u32, weight: u32) -> Value {
        let weight = weight as u64;
        Value { count: weight.wrapping_neg(), sum: weight * tick as u64 }
    }

    /// The line at a tick.
    pub fn at(self, t: u32) -> u64 {
        self.count.wrapping_mul(t as u64).wrapping_add(self.sum)
    }

    pub fn plus(self, other: Value) -> Value {
        Value { count: self.count.wrapping_add(other.count), sum: self.sum.wrapping_add(other.sum) }
    }

    pub fn minus(self, other: Value) -> Value {
        Value { count: self.count.wrapping_sub(other.count), sum: self.sum.wrapping_sub(other.sum) }
    }
}

pub fn low_key(keys: u64) -> u32 {
    keys as u16 as u32
}

pub fn high_key(keys: u64) -> u32 {
    (keys >> 16) as u16 as u32
}

/// The child page of a row's word 0, the end of its word 1, the page of a root entry.
pub fn upper_half(word: u64) -> u32 {
    (word >> 32) as u32
}

/// The birth of a row's word 1 and of a root entry.
pub fn birth_of(word: u64) -> u32 {
    word as u32
}

pub fn key_range(low: u32, high: u32) -> u64 {
    low as u64 | (high as u64) << 16
}

pub fn row_keys(low: u32, high: u32, child: u32) -> u64 {
    key_range(low, high) | (child as u64) << 32
}

/// A row's word 1 of a birth and an end; a root entry of a birth and a page.
pub fn pair(birth: u32, upper: u32) -> u64 {
    birth as u64 | (upper as u64) << 32
}

/// The words of the page of a number that is below the whole pages of the table.
pub fn page_of(table: &[u64], number: u32) -> &Page {
    let from = number as usize * PAGE_WORDS;
    table[from..from + PAGE_WORDS].try_into().unwrap()
}

pub fn page_of_mut(table: &mut [u64], number: u32) -> &mut Page {
    let from = number as usize * PAGE_WORDS;
    (&mut table[from..from + PAGE_WORDS]).try_into().unwrap()
}
