//! The library's fourteen functions as they are declared in `nimbleshale.h`, and a store with its lent memory on which a call can be made by the
//! library or by the port. Each test program uses a part of it.

#![allow(dead_code)]

use port::{BatTime, Block, Fed, Head, Lent, Memory, Totals, ENDS, STARTS, TREES};

// The head is 265 numbers in the header. The port's head is these numbers, in their order.
extern "C" {
    fn nimbleshale_open(
        head: &mut Head,
        start_table: *mut u64, start_table_length: usize, start_roots: *mut u64, start_roots_length: usize,
        end_table: *mut u64, end_table_length: usize, end_roots: *mut u64, end_roots_length: usize,
        time_table: *mut u64, time_table_length: usize, time_roots: *mut u64, time_roots_length: usize,
    ) -> u8;
    fn nimbleshale_start(
        head: &mut Head,
        start_table: *mut u64, start_table_length: usize, start_roots: *mut u64, start_roots_length: usize,
        end_table: *const u64, end_table_length: usize, end_roots: *const u64, end_roots_length: usize,
        time_table: *mut u64, time_table_length: usize, time_roots: *mut u64, time_roots_length: usize,
        tick: u32, key: u32, weight: u32, number: &mut u32,
    ) -> u8;
    fn nimbleshale_end(
        head: &mut Head,
        start_table: *const u64, start_table_length: usize, start_roots: *const u64, start_roots_length: usize,
        end_table: *mut u64, end_table_length: usize, end_roots: *mut u64, end_roots_length: usize,
        time_table: *mut u64, time_table_length: usize, time_roots: *mut u64, time_roots_length: usize,
        tick: u32, number: u32,
    ) -> u8;
    fn nimbleshale_question(
        head: &Head,
        start_table: *const u64, start_table_length: usize, start_roots: *const u64, start_roots_length: usize,
        end_table: *const u64, end_table_length: usize, end_roots: *const u64, end_roots_length: usize,
        time_table: *const u64, time_table_length: usize, time_roots: *const u64, time_roots_length: usize,
        k1: u32, k2: u32, t1: u32, t2: u32, count: &mut u64, sum: &mut u64, pages: &mut u32,
    ) -> u8;
    fn nimbleshale_bat_time(
        head: &Head,
        start_table: *const u64, start_table_length: usize, start_roots: *const u64, start_roots_length: usize,
        end_table: *const u64, end_table_length: usize, end_roots: *const u64, end_roots_length: usize,
        time_table: *const u64, time_table_length: usize, time_roots: *const u64, time_roots_length: usize,
        k1: u32, k2: u32, t1: u32, t2: u32, total: &mut u64, pages: &mut u32,
    ) -> u8;
    fn nimbleshale_lookup_starts(
        head: &Head,
        start_table: *const u64, start_table_length: usize, start_roots: *const u64, start_roots_length: usize,
        end_table: *const u64, end_table_length: usize, end_roots: *const u64, end_roots_length: usize,
        time_table: *const u64, time_table_length: usize, time_roots: *const u64, time_roots_length: usize,
        t: u32, k: u32, count: &mut u64, sum: &mut u64, pages: &mut u32,
    ) -> u8;
    fn nimbleshale_lookup_ends(
        head: &Head,
        start_table: *const u64, start_table_length: usize, start_roots: *const u64, start_roots_length: usize,
        end_table: *const u64, end_table_length: usize, end_roots: *const u64, end_roots_length: usize,
        time_table: *const u64, time_table_length: usize, time_roots: *const u64, time_roots_length: usize,
        t: u32, k: u32, count: &mut u64, sum: &mut u64, pages: &mut u32,
    ) -> u8;
    fn nimbleshale_lookup_time(
        head: &Head,
        start_table: *const u64, start_table_length: usize, start_roots: *const u64, start_roots_length: usize,
        end_table: *const u64, end_table_length: usize, end_roots: *const u64, end_roots_length: usize,
        time_table: *const u64, time_table_length: usize, time_roots: *const u64, time_roots_length: usize,
        t: u32, k: u32, factor: &mut u64, constant: &mut u64, pages: &mut u32,
    ) -> u8;
    fn nimbleshale_commands(
        head: &mut Head,
        start_table: *mut u64, start_table_length: usize, start_roots: *mut u64, start_roots_length: usize,
        end_table: *mut u64, end_table_length: usize, end_roots: *mut u64, end_roots_length: usize,
        time_table: *mut u64, time_table_length: usize, time_roots: *mut u64, time_roots_length: usize,
        input: *const u8, input_length: usize, ended: u8, out: *mut u8, out_length: usize, taken: &mut usize, written: &mut usize,
    ) -> u8;
    fn nimbleshale_burst(
        head: &mut Head,
        start_table: *mut u64, start_table_length: usize, start_roots: *mut u64, start_roots_length: usize,
        end_table: *mut u64, end_table_length: usize, end_roots: *mut u64, end_roots_length: usize,
        time_table: *mut u64, time_table_length: usize, time_roots: *mut u64, time_roots_length: usize,
        events: *const u8, events_length: usize, results: *mut u64, results_length: usize,
    ) -> u8;
    fn nimbleshale_block_reset(block: &mut Block);
    fn nimbleshale_block_read(block: &Block, offset: usize) -> u8;
    fn nimbleshale_block_line(block: &Block) -> u8;
    fn nimbleshale_block_write(
        block: &mut Block, offset: usize, value: u8,
        head: &mut Head,
        start_table: *mut u64, start_table_length: usize, start_roots: *mut u64, start_roots_length: usize,
        end_table: *mut u64, end_table_length: usize, end_roots: *mut u64, end_roots_length: usize,
        time_table: *mut u64, time_table_length: usize, time_roots: *mut u64, time_roots_length: usize,
    );
}

/// The page table and the root list of a tree.
#[derive(Clone, PartialEq, Eq)]
pub struct Slices {
    pub table: Vec<u64>,
    pub roots: Vec<u64>,
}

/// A head and what is lent with it.
#[derive(Clone, PartialEq, Eq)]
pub struct Store {
    pub head: Head,
    pub trees: [Slices; TREES],
}

#[derive(Clone, Copy, Debug, PartialEq, Eq)]
pub enum Call {
    Open,
    Start { tick: u32, key: u32, weight: u32 },
    End { tick: u32, number: u32 },
    Question { k1: u32, k2: u32, t1: u32, t2: u32 },
    BatTime { k1: u32, k2: u32, t1: u32, t2: u32 },
    Lookup { tree: usize, t: u32, k: u32 },
}

impl Call {
    /// Whether a call that is accepted may write.
    pub fn writes(self) -> bool {
        matches!(self, Call::Open | Call::Start { .. } | Call::End { .. })
    }
}

/// What a call answers. A result that the call does not set stays `UNSET`. A lookup of the tree of time has its factor in the place of the count, and its
/// constant in that of the sum.
#[derive(Clone, Copy, Debug, PartialEq, Eq)]
pub struct Answer {
    pub refusal: u8,
    pub number: u32,
    pub totals: Totals,
    pub time: BatTime,
}

const UNSET: u32 = 0xa5a5_a5a5;

impl Answer {
    pub fn unset(refusal: u8) -> Answer {
        let (totals, time) = (Totals { count: UNSET as u64, sum: UNSET as u64, pages: UNSET }, BatTime { total: UNSET as u64, pages: UNSET });
        Answer { refusal, number: UNSET, totals, time }
    }
}

/// The head and the six slices of a store, lent.
macro_rules! lent {
    ($function:ident $(($($first:expr),*))?, $store:ident $(, $more:expr)*) => {{
        let Store { head, trees: [starts, ends, time] } = $store;
        unsafe {
            $function(
                $($($first,)*)?
                head,
                starts.table.as_mut_ptr(), starts.table.len(), starts.roots.as_mut_ptr(), starts.roots.len(),
                ends.table.as_mut_ptr(), ends.table.len(), ends.roots.as_mut_ptr(), ends.roots.len(),
                time.table.as_mut_ptr(), time.table.len(), time.roots.as_mut_ptr(), time.roots.len()
                $(, $more)*
            )
        }
    }};
}

/// The same, only shown.
macro_rules! shown {
    ($function:ident, $store:ident $(, $more:expr)*) => {{
        let Store { head, trees: [starts, ends, time] } = &*$store;
        unsafe {
            $function(
                head,
                starts.table.as_ptr(), starts.table.len(), starts.roots.as_ptr(), starts.roots.len(),
                ends.table.as_ptr(), ends.table.len(), ends.roots.as_ptr(), ends.roots.len(),
                time.table.as_ptr(), time.table.len(), time.roots.as_ptr(), time.roots.len()
                $(, $more)*
            )
        }
    }};
}

/// A call made by the library.
#[inline]
pub fn by_library(store: &mut Store, call: Call) -> Answer {
    let Answer { mut number, totals: Totals { mut count, mut sum, mut pages }, mut time, .. } = Answer::unset(0);
    let refusal = match call {
        Call::Open => lent!(nimbleshale_open, store),
        Call::Start { tick, key, weight } => lent!(nimbleshale_start, store, tick, key, weight, &mut number),
        Call::End { tick, number } => lent!(nimbleshale_end, store, tick, number),
        Call::Question { k1, k2, t1, t2 } => shown!(nimbleshale_question, store, k1, k2, t1, t2, &mut count, &mut sum, &mut pages),
        Call::BatTime { k1, k2, t1, t2 } => shown!(nimbleshale_bat_time, store, k1, k2, t1, t2, &mut time.total, &mut time.pages),
        Call::Lookup { tree: STARTS, t, k } => shown!(nimbleshale_lookup_starts, store, t, k, &mut count, &mut sum, &mut pages),
        Call::Lookup { tree: ENDS, t, k } => shown!(nimbleshale_lookup_ends, store, t, k, &mut count, &mut sum, &mut pages),
        Call::Lookup { t, k, .. } => shown!(nimbleshale_lookup_time, store, t, k, &mut count, &mut sum, &mut pages),
    };
    Answer { refusal, number, totals: Totals { count, sum, pages }, time }
}

/// A store as the port gets it.
#[inline]
fn parts(store: &mut Store) -> (&mut Head, Lent<'_>) {
    let lent = store.trees.each_mut().map(|slices| Memory { table: &mut slices.table, roots: &mut slices.roots });
    (&mut store.head, lent)
}

/// A call made by the port.
#[inline]
pub fn by_port(store: &mut Store, call: Call) -> Answer {
    let Answer { mut number, mut totals, mut time, .. } = Answer::unset(0);
    let (head, lent) = parts(store);
    let refusal = match call {
        Call::Open => port::open(head, lent),
        Call::Start { tick, key, weight } => port::start(head, lent, tick, key, weight, &mut number),
        Call::End { tick, number } => port::end(head, lent, tick, number),
        Call::Question { k1, k2, t1, t2 } => port::question(head, port::seen(&lent), k1, k2, t1, t2, &mut totals),
        Call::BatTime { k1, k2, t1, t2 } => port::bat_time(head, port::seen(&lent), k1, k2, t1, t2, &mut time),
        Call::Lookup { tree, t, k } => port::look_up(head, port::seen(&lent), tree, t, k, &mut totals),
    };
    Answer { refusal, number, totals, time }
}

/// A packet of commands run by the library.
#[inline]
pub fn packet_by_library(store: &mut Store, input: &[u8], ended: bool, out: &mut [u8]) -> Fed {
    let (mut taken, mut written) = (usize::MAX, usize::MAX);
    let over = lent!(
        nimbleshale_commands, store, input.as_ptr(), input.len(), u8::from(ended), out.as_mut_ptr(), out.len(), &mut taken, &mut written
    );
    Fed { taken, written, over: over != 0 }
}

/// A packet of commands run by the port.
#[inline]
pub fn packet_by_port(store: &mut Store, input: &[u8], ended: bool, out: &mut [u8]) -> Fed {
    let (head, lent) = parts(store);
    port::commands(head, lent, input, ended, out)
}

/// A burst entered by the library.
#[inline]
pub fn burst_by_library(store: &mut Store, events: &[u8], results: &mut [u64]) -> u8 {
    lent!(nimbleshale_burst, store, events.as_ptr(), events.len(), results.as_mut_ptr(), results.len())
}

/// A burst entered by the port.
#[inline]
pub fn burst_by_port(store: &mut Store, events: &[u8], results: &mut [u64]) -> u8 {
    let (head, lent) = parts(store);
    port::burst(head, lent, events, results)
}

/// A write to a register block by the library.
#[inline]
pub fn write_by_library(store: &mut Store, block: &mut Block, offset: usize, value: u8) {
    lent!(nimbleshale_block_write (block, offset, value), store)
}

/// A write to a register block by the port.
#[inline]
pub fn write_by_port(store: &mut Store, block: &mut Block, offset: usize, value: u8) {
    let (head, lent) = parts(store);
    port::block_write(head, lent, block, offset, value)
}

/// What the library reads of a register block.
pub fn read_by_library(block: &Block, offset: usize) -> u8 {
    unsafe { nimbleshale_block_read(block, offset) }
}

/// Whether the library says that the interrupt line is high. A line that is neither high nor low is none.
pub fn line_by_library(block: &Block) -> bool {
    match unsafe { nimbleshale_block_line(block) } {
        0 => false,
        1 => true,
        other => panic!("the line is {other}"),
    }
}

/// A reset by the library.
pub fn reset_by_library(block: &mut Block) {
    unsafe { nimbleshale_block_reset(block) }
}

/// Words of a page.
pub const PAGE_WORDS: usize = 260;

impl Slices {
    /// Memory of zeros.
    pub fn lent(pages: usize, roots: usize) -> Slices {
        Slices { table: vec![0; PAGE_WORDS * pages], roots: vec![0; roots] }
    }
}

impl Store {
    /// Memory of zeros, each tree with as many pages and root entries as any other, and a head that fits nothing.
    pub fn lent(pages: usize, roots: usize) -> Store {
        Store { head: Head::ZERO, trees: [(); TREES].map(|()| Slices::lent(pages, roots)) }
    }

    /// The numbers of the open passes, as the head says.
    pub fn open_numbers(&self) -> Vec<u32> {
        self.head.passes.iter().take(self.head.count_open as usize).map(|pass| pass.number).collect()
    }
}

/// A small random generator (splitmix64), so that every run makes the same calls.
pub struct Random(pub u64);

impl Random {
    pub fn word(&mut self) -> u64 {
        self.0 = self.0.wrapping_add(0x9e37_79b9_7f4a_7c15);
        let x = (self.0 ^ self.0 >> 30).wrapping_mul(0xbf58_476d_1ce4_e5b9);
        let x = (x ^ x >> 27).wrapping_mul(0x94d0_49bb_1331_11eb);
        x ^ x >> 31
    }

    /// A number below a limit.
    pub fn below(&mut self, limit: u32) -> u32 {
        (self.word() >> 32) as u32 % limit.max(1)
    }

    /// A number from one to another, both included.
    pub fn between(&mut self, from: u32, to: u32) -> u32 {
        from + (self.word() >> 32) as u32 % (to - from).saturating_add(1).max(1)
    }

    pub fn one_in(&mut self, of: u32) -> bool {
        self.below(of) == 0
    }

    pub fn pick<'a, T>(&mut self, items: &'a [T]) -> &'a T {
        &items[self.below(items.len() as u32) as usize]
    }
}
