//! The port under the names of the library, as an archive for C: it stands in where the proved library is not at hand, and shows that the
//! tests need no more than the fourteen functions of the header. `host/include/nimbleshale.h` says what each does. Where the header has an array of
//! numbers for the head, here is the port's head, which is the same memory.

use port::{BatTime, Block, Fed, Head, Lent, Memory, Shown, Totals, ENDS, STARTS, TIME};
use std::slice::{from_raw_parts, from_raw_parts_mut};

/// A lent slice. C may hand in any address with a length of zero.
unsafe fn lent<'a, T>(start: *mut T, length: usize) -> &'a mut [T] {
    if length == 0 {
        return &mut [];
    }
    from_raw_parts_mut(start, length)
}

unsafe fn seen<'a, T>(start: *const T, length: usize) -> &'a [T] {
    if length == 0 {
        return &[];
    }
    from_raw_parts(start, length)
}

/// Defines a call that may write. With `first` there are arguments before those of the store, and where the expression behind them answers, the call is
/// done without the store: nothing of it is written, not even with what it held.
macro_rules! writing {
    ($name:ident -> $answer:ty, $call:path, ($($argument:ident: $type:ty),*), ($($passed:expr),*) $(, first ($($first:ident: $first_type:ty),*) $without:expr)?) => {
        /// # Safety
        /// Every pointer is to memory of its length, and no two overlap.
        #[no_mangle]
        pub unsafe extern "C" fn $name(
            $($($first: $first_type,)*)?
            head: &mut Head,
            start_table: *mut u64, start_table_length: usize, start_roots: *mut u64, start_roots_length: usize,
            end_table: *mut u64, end_table_length: usize, end_roots: *mut u64, end_roots_length: usize,
            time_table: *mut u64, time_table_length: usize, time_roots: *mut u64, time_roots_length: usize,
            $($argument: $type),*
        ) -> $answer {
            $(if let Some(answer) = $without {
                return answer;
            })?
            let memory = [
                Memory { table: lent(start_table, start_table_length), roots: lent(start_roots, start_roots_length) },
                Memory { table: lent(end_table, end_table_length), roots: lent(end_roots, end_roots_length) },
                Memory { table: lent(time_table, time_table_length), roots: lent(time_roots, time_roots_length) },
            ];
            $call(head, memory $(, $passed)*)
        }
    };
}

writing!(nimbleshale_open -> u8, port::open, (), ());
writing!(nimbleshale_start -> u8, port::start, (tick: u32, key: u32, weight: u32, number: &mut u32), (tick, key, weight, number));
writing!(nimbleshale_end -> u8, port::end, (tick: u32, number: u32), (tick, number));
writing!(
    nimbleshale_commands -> u8, packet,
    (input: *const u8, input_length: usize, ended: u8, out: *mut u8, out_length: usize, taken: &mut usize, written: &mut usize),
    (seen(input, input_length), ended != 0, lent(out, out_length), taken, written)
);
writing!(
    nimbleshale_burst -> u8, port::burst,
    (events: *const u8, events_length: usize, results: *mut u64, results_length: usize),
    (seen(events, events_length), lent(results, results_length))
);
writing!(
    nimbleshale_block_write -> (), port::block_write, (), (block, offset, value),
    first (block: &mut Block, offset: usize, value: u8) write_without_store(block, offset, value)
);

/// A write that runs no command. A handler may make it while a call on the store runs.
fn write_without_store(block: &mut Block, offset: usize, value: u8) -> Option<()> {
    (offset != 0).then(|| port::write_register(block, offset, value))
}

#[no_mangle]
pub extern "C" fn nimbleshale_block_reset(block: &mut Block) {
    port::block_reset(block);
}

#[no_mangle]
pub extern "C" fn nimbleshale_block_read(block: &Block, offset: usize) -> u8 {
    port::block_read(block, offset)
}

#[no_mangle]
pub extern "C" fn nimbleshale_block_line(block: &Block) -> u8 {
    u8::from(port::block_line(block))
}

/// A packet of commands; 1 where the run is over.
fn packet(head: &mut Head, memory: Lent, input: &[u8], ended: bool, out: &mut [u8], taken: &mut usize, written: &mut usize) -> u8 {
    let fed: Fed = port::commands(head, memory, input, ended, out);
    (*taken, *written) = (fed.taken, fed.written);
    u8::from(fed.over)
}

/// Defines a call that only reads: its own arguments, and its results with what each becomes of the answer. A refused call writes no result.
macro_rules! reading {
    ($name:ident, $call:path, $answer:ident, ($($fixed:expr),*), ($($argument:ident),*), ($($result:ident: $type:ty = $field:ident),*)) => {
        /// # Safety
        /// Every pointer is to memory of its length, and no two overlap.
        #[no_mangle]
        pub unsafe extern "C" fn $name(
            head: &Head,
            start_table: *const u64, start_table_length: usize, start_roots: *const u64, start_roots_length: usize,
            end_table: *const u64, end_table_length: usize, end_roots: *const u64, end_roots_length: usize,
            time_table: *const u64, time_table_length: usize, time_roots: *const u64, time_roots_length: usize,
            $($argument: u32,)* $($result: &mut $type),*
        ) -> u8 {
            let memory = [
                Shown { table: seen(start_table, start_table_length), roots: seen(start_roots, start_roots_length) },
                Shown { table: seen(end_table, end_table_length), roots: seen(end_roots, end_roots_length) },
                Shown { table: seen(time_table, time_table_length), roots: seen(time_roots, time_roots_length) },
            ];
            let mut answer = $answer::default();
            let refused = $call(head, memory, $($fixed,)* $($argument,)* &mut answer);
            if refused == 0 {
                $(*$result = answer.$field;)*
            }
            refused
        }
    };
}

reading!(nimbleshale_question, port::question, Totals, (), (k1, k2, t1, t2), (count: u64 = count, sum: u64 = sum, pages: u32 = pages));
reading!(nimbleshale_bat_time, port::bat_time, BatTime, (), (k1, k2, t1, t2), (total: u64 = total, pages: u32 = pages));
reading!(nimbleshale_lookup_starts, port::look_up, Totals, (STARTS), (t, k), (count: u64 = count, sum: u64 = sum, pages: u32 = pages));
reading!(nimbleshale_lookup_ends, port::look_up, Totals, (ENDS), (t, k), (count: u64 = count, sum: u64 = sum, pages: u32 = pages));
reading!(nimbleshale_lookup_time, port::look_up, Totals, (TIME), (t, k), (factor: u64 = count, constant: u64 = sum, pages: u32 = pages));
