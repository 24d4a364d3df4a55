/*
 * The pass index of the sealed bat detector, for firmware in C (C99 or later) or C++.
 *
 * The index counts bat passes, adds up their detection weights and tells their bat-time, for a band of keys and an interval of ticks. It lives in
 * memory that the firmware lends: a head, and a page table and a root list for each of its three trees, those of starts, of ends and of time. The
 * functions keep nothing between calls, allocate nothing, and never fail other than by a numbered refusal.
 *
 *   key     peak frequency in units of 10 Hz, 0 to 29,999
 *   weight  detection weight in hundredths, 1 to 10,000
 *   tick    10 ms, 0 to 4,294,967,294
 *   pass    one bat going by: a key, a weight, a life. A pass that started at s and ended at e lives at ticks s to e, both included; a single
 *           click starts and ends on one tick. An open pass has no last tick. Passes are numbered 0, 1, 2 and on as starts are accepted.
 *   bat-time weight times ticks: a pass of weight 100 that lives at 5 ticks of an interval gives 500. It is exact, never rounded or cut: the bat-time
 *           of a store is below 2^52. One weight (100 hundredths) through one second (100 ticks) is 10,000.
 *
 * What holds of every call:
 *   - It returns 0, or the number of the first refusal whose condition holds: first the refusals because of the input, then those because
 *     of the state, each list in number order. Nothing else is refused. (Only nimbleshale_commands and the four calls of the register block
 *     return something else. They are never refused themselves; what is said here holds of each command that they run, and the refusal of one
 *     that came through the block stands in the status register. It holds of each event of nimbleshale_burst too, which itself is refused with
 *     31 or not at all.)
 *   - Refused, it leaves every lent number and word as it was, and its results (number, count, sum, total, pages, result words) as well. (A
 *     command that is refused through the register block leaves the store as it was, and says so in the block.)
 *   - Any content of the lent memory is allowed, spoiled content too: a call then ends with a refusal or serves the words as they are. What
 *     is said of passes below is said of a store grown from opening, whose memory nobody else wrote.
 *   - Every call on a store gets the head and all six slices, those that the calls before it got. The head, each slice and each lent number is
 *     memory of its own, and so is a register block: no two of them may overlap. This the functions cannot test, nor that a pointer leads to as
 *     much memory as is said.
 *   - A slice is a pointer and a length in elements. Words of a table past its last whole page are neither read nor written.
 *   - Numbers are 32 bits wide. C cuts a wider one at the call without a word: a tick of 2^32 + 5 arrives as 5. nimbleshale_narrowed guards.
 *   - While a call that writes runs on a store, no other call runs on it. Questions, bat-times and lookups change nothing and may run together.
 *     Calls on different stores never meet: the functions have no memory of their own. With register blocks it is the same: while one is written
 *     or reset, no other call runs on it. A write to a block is a call on the store only where it is to byte 0.
 *
 * Names. The library has fourteen functions: open, start, end, question, bat_time, lookup_starts, lookup_ends, lookup_time, commands, burst,
 * block_reset, block_read, block_line and block_write, each behind `nimbleshale_`. They take head and memory piece by piece. Firmware normally keeps
 * a `struct nimbleshale_store` instead, and calls the same function with `store_` before its name: nimbleshale_store_start(&store, ..) is
 * nimbleshale_start on all that the store holds, and so for each of the fourteen but block_reset, block_read and block_line, which get no store.
 * Parameters of the library's functions and fields of the store have the same names.
 *
 * Interrupt handlers. Where a handler interrupts no call on a store, it may make any call on it. Where it interrupts a question, a bat-time or a
 * lookup, it may make such calls on that store. Where it interrupts an opening, a start, an end, commands, a burst or a write to byte 0 of a register block,
 * it may make no call on that store and read nothing of its head and memory, which may be half written. The simplest way is to put what a handler
 * hears into a queue, and to make the calls in the main loop: nimbleshale_burst takes such a queue in one call.
 * Resetting a block, reading it and asking for its line touch its 40 bytes and no store, and so does writing to any byte of it but byte 0: a
 * handler may do all this whatever call on a store it interrupts, as long as that is no call on the block itself. A write to byte 0 is a call on
 * the store: a handler that interrupts another one keeps the byte, and the main loop makes the write (host/example/firmware.c).
 * A handler that calls needs the stack of the call and saves the registers that calls use; and none, whether it calls or not, may write within
 * the 128 bytes below the interrupted stack pointer (docs/FIRMWARE.md).
 *
 * Stack. What is said at each function are bytes below the caller, arguments included, at their deepest in trees four pages high, on x86-64
 * (host/bench/run measures them; these are of the archive that the gate builds).
 */
#ifndef NIMBLESHALE_H
#define NIMBLESHALE_H

#include <stddef.h>
#include <stdint.h>

/* An answer must be looked at: a refusal that nobody sees is a pass lost without a word. Compilers that can, warn. */
#if defined(__cplusplus) && __cplusplus >= 201703L
#define NIMBLESHALE_MUST_USE [[nodiscard]]
#elif defined(__GNUC__)
#define NIMBLESHALE_MUST_USE __attribute__((warn_unused_result))
#else
#define NIMBLESHALE_MUST_USE
#endif

/* Limits. */
#define NIMBLESHALE_KEYS 30000u            /* keys are below this number; k2 of a question or a bat-time is at most this */
#define NIMBLESHALE_HIGHEST_KEY 29999u
#define NIMBLESHALE_HIGHEST_WEIGHT 10000u
#define NIMBLESHALE_TICKS 4294967295u      /* ticks are below this number; t2 of a question or a bat-time is at most this */
#define NIMBLESHALE_HIGHEST_TICK 4294967294u
#define NIMBLESHALE_OPEN_PASSES 64u        /* passes that may be open together */
#define NIMBLESHALE_PASSES 1000000u        /* passes that a store takes */
#define NIMBLESHALE_PAGES 1000000u         /* pages that a tree uses at most; a table may be larger */
#define NIMBLESHALE_PAGE_WORDS 260u        /* 64-bit words of a page in a page table */
#define NIMBLESHALE_LOOKUP_PAGES 4u        /* pages that a lookup opens at most */
#define NIMBLESHALE_QUESTION_PAGES 16u     /* pages that a question or a bat-time opens at most */
#define NIMBLESHALE_ENTRY_PAGES 7u         /* pages that one start or end takes at most, of each of the two trees that it writes */
#define NIMBLESHALE_LONGEST_COMMAND 13u    /* bytes of the longest command of the command stream, a question or a bat-time */
#define NIMBLESHALE_LONGEST_ANSWER 18u     /* bytes of the longest answer, that to a question */
#define NIMBLESHALE_BURST_EVENTS 256u      /* events that a burst has at most */
#define NIMBLESHALE_EVENT_BYTES 9u         /* bytes of an event of a burst, which are those of its command */
#define NIMBLESHALE_RESULT_WORDS 2u        /* 64-bit words that an event of a burst gets for its result */
#define NIMBLESHALE_BLOCK_BYTES 40u        /* bytes of a register block */

/* Where the numbers of a head stand, and how many it has. */
#define NIMBLESHALE_HEAD_LAST 0u           /* the last tick: that of the latest accepted start or end, 0 at opening */
#define NIMBLESHALE_HEAD_STARTED 1u        /* how many passes were started since opening */
#define NIMBLESHALE_HEAD_OPEN 2u           /* how many of them are open */
#define NIMBLESHALE_HEAD_START_PAGES 3u    /* the pages that the tree of starts uses, and the root entries */
#define NIMBLESHALE_HEAD_START_ROOTS 4u
#define NIMBLESHALE_HEAD_END_PAGES 5u      /* those of the tree of ends */
#define NIMBLESHALE_HEAD_END_ROOTS 6u
#define NIMBLESHALE_HEAD_TIME_PAGES 7u     /* those of the tree of time */
#define NIMBLESHALE_HEAD_TIME_ROOTS 8u
#define NIMBLESHALE_HEAD_PASSES 9u         /* the open passes in order of opening: 64 places of number, key, weight, start; unused ones are zero */
#define NIMBLESHALE_HEAD_NUMBERS 265u

/* First bytes of the commands. */
#define NIMBLESHALE_COMMAND_START 1u
#define NIMBLESHALE_COMMAND_END 2u
#define NIMBLESHALE_COMMAND_QUESTION 3u
#define NIMBLESHALE_COMMAND_BAT_TIME 4u

/* Where the registers of a block stand, and how many bytes those have that take several. */
#define NIMBLESHALE_BLOCK_COMMAND 0u
#define NIMBLESHALE_BLOCK_OPERANDS 1u
#define NIMBLESHALE_BLOCK_OPERAND_BYTES 12u
#define NIMBLESHALE_BLOCK_STATUS 13u
#define NIMBLESHALE_BLOCK_FLAGS 14u
#define NIMBLESHALE_BLOCK_MASK 15u
#define NIMBLESHALE_BLOCK_RESULT 16u
#define NIMBLESHALE_BLOCK_RESULT_BYTES 17u

/* Bits of the flags, and of the mask over them. */
#define NIMBLESHALE_FLAG_DONE 1u           /* a command has run, be it refused */
#define NIMBLESHALE_FLAG_REFUSED 2u        /* its status is not 0 */
#define NIMBLESHALE_FLAG_ALL_OPEN 4u       /* 64 passes are open after it */

/* Words of a page table, as a size_t: sizeof(char) is 1, and makes it one without a cast, in C and in C++. A root list as
 * long as its table has pages never runs full. A tree that took n points uses at most 4 + 4n / 9 pages. A start is a point of the tree of starts, an
 * end one of the tree of ends, and each of them one of the tree of time, which grows as fast as both others together. */
#define NIMBLESHALE_TABLE_WORDS(pages) (sizeof(char) * NIMBLESHALE_PAGE_WORDS * (pages))

/* Room for answers that is always enough for these bytes of commands, as a size_t in the same way: no command then waits for room. */
#define NIMBLESHALE_ROOM(bytes) (sizeof(char) * 2u * (bytes) + NIMBLESHALE_LONGEST_ANSWER)

/* Refusals because of the input. */
#define NIMBLESHALE_ACCEPTED 0             /* no refusal */
#define NIMBLESHALE_REFUSED_KEY 1          /* key or k1 above 29,999, or k2 above 30,000 */
#define NIMBLESHALE_REFUSED_BAND 2         /* k1 not below k2 */
#define NIMBLESHALE_REFUSED_WEIGHT 3       /* weight 0 or above 10,000 */
#define NIMBLESHALE_REFUSED_TICK 4         /* tick 4,294,967,295 in a start, an end or a lookup */
#define NIMBLESHALE_REFUSED_INTERVAL 5     /* t1 not below t2 */
#define NIMBLESHALE_REFUSED_COMMAND 6      /* unknown command byte: in the command stream, in an event of a burst, or in byte 0 of a register block */
#define NIMBLESHALE_REFUSED_CUT_SHORT 7    /* command cut short; only the command stream gives it */
#define NIMBLESHALE_REFUSED_MEMORY 8       /* on opening, a page table under 260 words or an empty root list, of any tree */
#define NIMBLESHALE_REFUSED_BURST 31       /* a burst of over 256 events, one that ends inside an event, or a result list too short for it */

/* Refusals because of the state. 23 is retired: it was an end at the pass's own start tick, which is accepted now. The number is not used again. */
#define NIMBLESHALE_REFUSED_HEAD 20        /* head that doesn't fit: over 64 open, an open key or weight beyond its range, open numbers that
                                              don't rise or reach the number started, an open start after the last tick, over 1,000,000
                                              started; of any tree: no pages or roots used, over 1,000,000 pages used, more pages than the
                                              table holds, more roots than pages used or than list words */
#define NIMBLESHALE_REFUSED_EARLIER 21     /* tick of a start or an end before the last tick */
#define NIMBLESHALE_REFUSED_NOT_OPEN 22    /* no open pass of that number */
#define NIMBLESHALE_REFUSED_ALL_OPEN 24    /* a start with 64 open */
#define NIMBLESHALE_REFUSED_ALL_STARTED 25 /* a start with 1,000,000 started */
#define NIMBLESHALE_REFUSED_SPOILED 26     /* spoiled page met: no root for the tick, page number not below pages used, wrong level, row count
                                              out of 1 to 64, live rows that fail to hold each key of the page's range once, an empty live
                                              row, a child or root of another key range than expected, or a level 3 root whose rows must go
                                              to two pages */
#define NIMBLESHALE_REFUSED_NO_PAGES 27    /* in a tree that this call writes, the pages it makes outnumber those left, which are the table's
                                              whole pages, at most 1,000,000 of them, less the pages used */
#define NIMBLESHALE_REFUSED_NO_ROOT 28     /* in a tree that this call writes, a new root entry finds the list full */

#ifdef __cplusplus
extern "C" {
#endif

/*
 * The fourteen functions of the library. Each gets the head as one array of 265 numbers, in which everything has its place (NIMBLESHALE_HEAD_LAST and
 * on). There is no length: it is always NIMBLESHALE_HEAD_NUMBERS numbers, and fewer are a fault that the functions cannot see. Then come the page
 * tables and the root lists of the three trees, each with its length behind it: start_table, start_roots, end_table, end_roots, time_table, time_roots.
 */

/*
 * Opens a store: makes it empty, whatever the memory held and whether or not a store was opened in it before. The old head is not looked at.
 *
 * Refusals: 8, where any of the three trees has too little.
 * Accepted: the last tick, the number started and the number open become 0, pages and roots used of each tree 1, all of the open passes 0. Of each
 * table the first 260 words are written, of each root list the first word; every other word stays as it was.
 * Stack: 2,024 bytes.
 */
NIMBLESHALE_MUST_USE
uint8_t nimbleshale_open(uint32_t head[NIMBLESHALE_HEAD_NUMBERS],
                         uint64_t *start_table, size_t start_table_length, uint64_t *start_roots, size_t start_roots_length,
                         uint64_t *end_table, size_t end_table_length, uint64_t *end_roots, size_t end_roots_length,
                         uint64_t *time_table, size_t time_table_length, uint64_t *time_roots, size_t time_roots_length);

/*
 * A pass starts at a tick, with a key and a weight.
 *
 * Refusals: 1, 3, 4, 20, 21, 24, 25, 26, 27, 28. It writes the trees of starts and of time, and looks at both before it writes either: 26 of any of
 * them comes before 27 of any, and that before 28 of any. The tree of ends may be spoiled or full.
 * Accepted: *number becomes the pass's number, which is how many passes were started before it. The tick becomes the last tick, the numbers of passes
 * started and open grow by one, and the pass stands in the next place of the open passes. Words of start_table, start_roots, time_table and
 * time_roots may change, and the pages and roots used of both trees may grow. The tree of ends is as it was.
 * Stack: 20,024 bytes.
 */
NIMBLESHALE_MUST_USE
uint8_t nimbleshale_start(uint32_t head[NIMBLESHALE_HEAD_NUMBERS],
                          uint64_t *start_table, size_t start_table_length, uint64_t *start_roots, size_t start_roots_length,
                          const uint64_t *end_table, size_t end_table_length, const uint64_t *end_roots, size_t end_roots_length,
                          uint64_t *time_table, size_t time_table_length, uint64_t *time_roots, size_t time_roots_length,
                          uint32_t tick, uint32_t key, uint32_t weight, uint32_t *number);

/*
 * The open pass of a number ends at a tick, which is its last: it lives at that tick too. The tick may be that of its start: a click.
 *
 * Refusals: 4, 20, 21, 22, 26, 27, 28. It writes the trees of ends and of time, and looks at both before it writes either, as a start does. The tree
 * of starts may be spoiled or full.
 * Accepted: the tick becomes the last tick and the number of open passes falls by one; the later open passes move down by one place, and the place set
 * free is zeroed. Words of end_table, end_roots, time_table and time_roots may change, and the pages and roots used of both trees may grow. The tree
 * of starts is as it was.
 * Stack: 21,080 bytes.
 */
NIMBLESHALE_MUST_USE
uint8_t nimbleshale_end(uint32_t head[NIMBLESHALE_HEAD_NUMBERS],
                        const uint64_t *start_table, size_t start_table_length, const uint64_t *start_roots, size_t start_roots_length,
                        uint64_t *end_table, size_t end_table_length, uint64_t *end_roots, size_t end_roots_length,
                        uint64_t *time_table, size_t time_table_length, uint64_t *time_roots, size_t time_roots_length,
                        uint32_t tick, uint32_t number);

/*
 * A question: keys k1 up to but not k2 (k2 at most 30,000), ticks t1 up to but not t2 (t2 at most 4,294,967,295).
 *
 * Refusals: 1, 2, 5, 20, 26. It looks at the trees of starts and of ends; that of time may be spoiled.
 * Accepted: *count becomes the number of passes with k1 <= key < k2 that started before t2 and are open or ended at t1 or later: those that live
 * at some tick of the question. *sum becomes the sum of their weights, *pages the pages opened, at most 16. Nothing else changes, accepted or not.
 * With t1 = 0 no page of the tree of ends is opened, be it spoiled or not: no pass ended before tick 0.
 * Stack: 4,136 bytes.
 */
NIMBLESHALE_MUST_USE
uint8_t nimbleshale_question(const uint32_t head[NIMBLESHALE_HEAD_NUMBERS],
                             const uint64_t *start_table, size_t start_table_length, const uint64_t *start_roots, size_t start_roots_length,
                             const uint64_t *end_table, size_t end_table_length, const uint64_t *end_roots, size_t end_roots_length,
                             const uint64_t *time_table, size_t time_table_length, const uint64_t *time_roots, size_t time_roots_length,
                             uint32_t k1, uint32_t k2, uint32_t t1, uint32_t t2, uint64_t *count, uint64_t *sum, uint32_t *pages);

/*
 * Bat-time: of the passes with k1 <= key < k2 (k2 at most 30,000), the weight times the ticks from t1 up to but not t2 (t2 at most 4,294,967,295) at
 * which they live. A pass of ticks 10 to 29 and weight 100 gives 500 in 20 to 25, and 200 in 28 to 40. An open pass runs on: it gives its weight for
 * every tick from its start up to t2, also where t2 is later than the last tick.
 *
 * Refusals: 1, 2, 5, 20, 26, as of a question. It looks at the tree of time alone; those of starts and of ends may be spoiled.
 * Accepted: *total becomes the sum of these products, *pages the pages opened, at most 16. Nothing else changes, accepted or not.
 * The total is exact: it is the sum itself, and not the sum modulo something. With t1 = 0 half as many lookups are made.
 * Stack: 4,136 bytes.
 */
NIMBLESHALE_MUST_USE
uint8_t nimbleshale_bat_time(const uint32_t head[NIMBLESHALE_HEAD_NUMBERS],
                             const uint64_t *start_table, size_t start_table_length, const uint64_t *start_roots, size_t start_roots_length,
                             const uint64_t *end_table, size_t end_table_length, const uint64_t *end_roots, size_t end_roots_length,
                             const uint64_t *time_table, size_t time_table_length, const uint64_t *time_roots, size_t time_roots_length,
                             uint32_t k1, uint32_t k2, uint32_t t1, uint32_t t2, uint64_t *total, uint32_t *pages);

/*
 * A lookup in the tree of starts, at tick t and key k.
 *
 * Refusals: 1, 4, 20, 26.
 * Accepted: *count becomes the number of passes with start <= t and key <= k, *sum the sum of their weights, *pages the pages opened, at
 * most 4. Nothing else changes, accepted or not.
 * Stack: 3,400 bytes.
 */
NIMBLESHALE_MUST_USE
uint8_t nimbleshale_lookup_starts(const uint32_t head[NIMBLESHALE_HEAD_NUMBERS],
                                  const uint64_t *start_table, size_t start_table_length, const uint64_t *start_roots, size_t start_roots_length,
                                  const uint64_t *end_table, size_t end_table_length, const uint64_t *end_roots, size_t end_roots_length,
                                  const uint64_t *time_table, size_t time_table_length, const uint64_t *time_roots, size_t time_roots_length,
                                  uint32_t t, uint32_t k, uint64_t *count, uint64_t *sum, uint32_t *pages);

/* The same in the tree of ends: the passes that ended, with end <= t and key <= k. */
NIMBLESHALE_MUST_USE
uint8_t nimbleshale_lookup_ends(const uint32_t head[NIMBLESHALE_HEAD_NUMBERS],
                                const uint64_t *start_table, size_t start_table_length, const uint64_t *start_roots, size_t start_roots_length,
                                const uint64_t *end_table, size_t end_table_length, const uint64_t *end_roots, size_t end_roots_length,
                                const uint64_t *time_table, size_t time_table_length, const uint64_t *time_roots, size_t time_roots_length,
                                uint32_t t, uint32_t k, uint64_t *count, uint64_t *sum, uint32_t *pages);

/*
 * A lookup in the tree of time, at tick t and key k. A point of this tree is a line over ticks. Where a pass of weight w starts at s, the factor of the
 * tick is w and the constant w - w * s; where it ends at e, they are -w and w * e. All of this is modulo 2^64.
 *
 * Refusals: 1, 4, 20, 26.
 * Accepted: *factor and *constant become the sums of what the starts and ends with tick <= t and key <= k carry, modulo 2^64, and *pages the pages
 * opened, at most 4. Then *factor * t + *constant, modulo 2^64, is weight times ticks lived up to tick t, that tick included, by the passes with
 * key <= k: what bat-time is made of. Nothing else changes, accepted or not.
 * Stack: 3,400 bytes.
 */
NIMBLESHALE_MUST_USE
uint8_t nimbleshale_lookup_time(const uint32_t head[NIMBLESHALE_HEAD_NUMBERS],
                                const uint64_t *start_table, size_t start_table_length, const uint64_t *start_roots, size_t start_roots_length,
                                const uint64_t *end_table, size_t end_table_length, const uint64_t *end_roots, size_t end_roots_length,
                                const uint64_t *time_table, size_t time_table_length, const uint64_t *time_roots, size_t time_roots_length,
                                uint32_t t, uint32_t k, uint64_t *factor, uint64_t *constant, uint32_t *pages);

/*
 * Commands from the radio: as many as stand whole at the front of input and have room for their answers. The store must be open; the stream
 * has no command that opens one. A number in the stream has its lowest byte first:
 *
 *   01 tick (4 bytes) key (2) weight (2)         a start; answers 00 number (4)
 *   02 tick (4) number (4)                       an end; answers 00
 *   03 k1 (2) k2 (2) t1 (4) t2 (4)               a question; answers 00 count (8) sum (8) pages (1)
 *   04 k1 (2) k2 (2) t1 (4) t2 (4)               a bat-time; answers 00 total (8) pages (1)
 *
 * A refused command answers the number of its refusal in one byte and leaves everything as it was, and the next one is run. A byte that begins no
 * command answers 6, a command cut short answers 7, and either ends the run.
 *
 * It runs a command only where 18 more bytes, the longest answer, fit in out, and only when all its bytes have come. What is not taken waits: the
 * caller keeps it, and hands it in again with what came since behind it. Whether and where the stream is cut into such pieces makes no
 * difference to the store and the answers. Room of NIMBLESHALE_ROOM(input_length) is always enough; with less than 18 bytes nothing is run.
 *
 * ended is 0 while more bytes may come. It is anything else where none come behind these; only then is a command that lacks bytes cut short.
 *
 * Returns 1 where the run is over: 6 or 7 was answered, or ended is not 0 and every byte was taken. Else 0. With ended not 0 and room for 18
 * bytes, each call takes a byte or returns 1.
 * Refusals: none of its own.
 * *taken becomes how many bytes of the front of input were taken, *written how many bytes of answers stand at the front of out. Bytes of out
 * behind them are as they were, and input is. Head and slices are left as the commands leave them, one after the other.
 * Stack: 23,832 bytes.
 */
NIMBLESHALE_MUST_USE
uint8_t nimbleshale_commands(uint32_t head[NIMBLESHALE_HEAD_NUMBERS],
                             uint64_t *start_table, size_t start_table_length, uint64_t *start_roots, size_t start_roots_length,
                             uint64_t *end_table, size_t end_table_length, uint64_t *end_roots, size_t end_roots_length,
                             uint64_t *time_table, size_t time_table_length, uint64_t *time_roots, size_t time_roots_length,
                             const uint8_t *input, size_t input_length, uint8_t ended, uint8_t *out, size_t out_length, size_t *taken,
                             size_t *written);

/*
 * A burst: up to 256 starts and ends that were queued, entered one by one in their order. Each event is the 9 bytes of its command:
 *
 *   01 tick (4 bytes) key (2) weight (2)         a start
 *   02 tick (4) number (4)                       an end
 *
 * nimbleshale_event_start and nimbleshale_event_end write them. The event in place i, counted from 0, gets two result words: results[2 * i] is the
 * number of its refusal, or 0, and results[2 * i + 1] the number of the pass that it started, or 0.
 *
 *   a start that is accepted                     0 and its number, which of the first pass is 0
 *   an end that is accepted                      0 and 0
 *   a start or an end that is refused            the number of its refusal, as nimbleshale_start or nimbleshale_end gives it, and 0
 *   a first byte that is neither 1 nor 2         6 and 0
 *
 * An event that is refused leaves everything as it was, and the next one is tried, whatever the refusal: nothing ends a burst but its end. A head
 * that doesn't fit is no refusal of the burst; each of its events then gets its own 1, 3, 4, 6 or 20.
 *
 * Refusals: 31, where there are over 2,304 bytes, where their number is no multiple of 9, or where results_length is under two words an event.
 * Then no event is tried, and no result word is written.
 * Accepted: the result words of every event are written; those behind them stay as they were, and so do the events. Head and slices are left as
 * the starts and ends leave them, one after the other. A burst of no events is accepted and changes nothing.
 * Stack: 22,008 bytes.
 */
NIMBLESHALE_MUST_USE
uint8_t nimbleshale_burst(uint32_t head[NIMBLESHALE_HEAD_NUMBERS],
                          uint64_t *start_table, size_t start_table_length, uint64_t *start_roots, size_t start_roots_length,
                          uint64_t *end_table, size_t end_table_length, uint64_t *end_roots, size_t end_roots_length,
                          uint64_t *time_table, size_t time_table_length, uint64_t *time_roots, size_t time_roots_length,
                          const uint8_t *events, size_t events_length, uint64_t *results, size_t results_length);

/*
 * The register block: 40 bytes that the firmware lends, and that the radio chip reads and writes over a bus, a byte at a time. For each access the
 * firmware makes one of the calls below, and afterwards it sets the interrupt line as nimbleshale_block_line says.
 *
 *   0          command    the first byte of a command of the stream: 01 start, 02 end, 03 question, 04 bat-time
 *   1 to 12    operands   the bytes that follow it in the stream; a start and an end have the first 8 of them
 *   13         status     the first byte of the command's answer: 0, or the number of its refusal
 *   14         flags      bit 0 done, bit 1 refused, bit 2 64 passes open after the command
 *   15         mask       a one for each flag that raises the line
 *   16 to 32   result     the bytes that follow in the answer, and zeros behind them: of a start the number (16 to 19), of a question count (16 to
 *                         23), sum (24 to 31) and pages (32), of a bat-time total (16 to 23) and pages (24); zeros of an end, and of a command
 *                         that is refused
 *   33 and on             no registers: they read zero and ignore writes, 40 and all that lies past the block too
 *
 * Any content of the 40 bytes is allowed. Of byte 14 only the three flags count, and bytes 33 to 39 are read by nobody. What the block says of
 * earlier commands it says of a block that began with a reset and was changed only by these calls.
 */

/*
 * Resets a block: all 40 bytes become 0, so no flag is set, the mask is 0 and the line is low. The store is not touched.
 *
 * Stack: 24 bytes.
 */
void nimbleshale_block_reset(uint8_t block[NIMBLESHALE_BLOCK_BYTES]);

/*
 * What the radio side reads at an offset, which may be any number: of byte 14 the three flags, of any other byte below 33 the byte itself, and 0
 * from 33 on. No offset is taken modulo anything. Command, operands and mask read as last written. Nothing changes.
 *
 * Stack: 24 bytes.
 */
NIMBLESHALE_MUST_USE
uint8_t nimbleshale_block_read(const uint8_t block[NIMBLESHALE_BLOCK_BYTES], size_t offset);

/*
 * The interrupt line: 1, high, exactly if a flag and its mask bit are both set, and else 0. Mask bits above the three flags raise nothing. Nothing
 * changes.
 *
 * Stack: 8 bytes.
 */
NIMBLESHALE_MUST_USE
uint8_t nimbleshale_block_line(const uint8_t block[NIMBLESHALE_BLOCK_BYTES]);

/*
 * The radio side writes a value at an offset, which may be any number.
 *
 *   0            the command of that byte runs on the operands (see below)
 *   1 to 12, 15  the byte becomes the value; the mask keeps all its 8 bits
 *   14           the flags that are ones in the value are cleared; byte 14 is then the flags that are left, and nothing above bit 2
 *   any other    nothing: status and result cannot be written, and there is nothing else
 *
 * Only a write to 0 has to do with the store. Any other writes nothing of the head and the slices, and changes at most the byte that it names.
 *
 * A write to 0: the byte becomes the value, and the command runs as in the stream, with the refusals of nimbleshale_start, nimbleshale_end,
 * nimbleshale_question or nimbleshale_bat_time. All 12 operands are there, so no command is cut short. A byte that begins no command has the status
 * 6 and leaves the store as it was; unlike the stream a block goes on after it. Whatever the command was, status, flags and result are all written
 * anew: done is set, refused is set exactly if the status is not 0, the third flag exactly if the head has 64 passes open after the command (not if a
 * spoiled head has 65), and the bytes of the result behind the answer are 0. Mask, operands and bytes 33 to 39 stay as they were. Head and slices
 * are left as the stream's command leaves them.
 *
 * Refusals: none of its own.
 * Stack: 25,096 bytes; a question and a bat-time take 4,280, and a write to another byte than 0 takes 1,456.
 */
void nimbleshale_block_write(uint8_t block[NIMBLESHALE_BLOCK_BYTES], size_t offset, uint8_t value, uint32_t head[NIMBLESHALE_HEAD_NUMBERS],
                             uint64_t *start_table, size_t start_table_length, uint64_t *start_roots, size_t start_roots_length,
                             uint64_t *end_table, size_t end_table_length, uint64_t *end_roots, size_t end_roots_length,
                             uint64_t *time_table, size_t time_table_length, uint64_t *time_roots, size_t time_roots_length);

#ifdef __cplusplus
}
#endif

/* A store: its head, and the memory lent to it. Firmware may read the head's numbers, such as store.head[NIMBLESHALE_HEAD_LAST]; only the functions
 * write them. */
struct nimbleshale_store {
    uint32_t head[NIMBLESHALE_HEAD_NUMBERS];
    uint64_t *start_table;
    size_t start_table_length;
    uint64_t *start_roots;
    size_t start_roots_length;
    uint64_t *end_table;
    size_t end_table_length;
    uint64_t *end_roots;
    size_t end_roots_length;
    uint64_t *time_table;
    size_t time_table_length;
    uint64_t *time_roots;
    size_t time_roots_length;
};

/* What a question answers, and a lookup in the tree of starts or of ends. */
struct nimbleshale_totals {
    uint64_t count;
    uint64_t sum;
    uint32_t pages;
};

/* What a bat-time answers. */
struct nimbleshale_time {
    uint64_t total;
    uint32_t pages;
};

/* What a lookup in the tree of time answers. */
struct nimbleshale_line {
    uint64_t factor;
    uint64_t constant;
    uint32_t pages;
};

/* What of a store every function gets. */
#define NIMBLESHALE_LENT \
    store->head, store->start_table, store->start_table_length, store->start_roots, store->start_roots_length, \
    store->end_table, store->end_table_length, store->end_roots, store->end_roots_length, \
    store->time_table, store->time_table_length, store->time_roots, store->time_roots_length

/* nimbleshale_open on a store whose six slices are set. */
NIMBLESHALE_MUST_USE
static inline uint8_t nimbleshale_store_open(struct nimbleshale_store *store)
{
    return nimbleshale_open(NIMBLESHALE_LENT);
}

/* nimbleshale_start on a store. */
NIMBLESHALE_MUST_USE
static inline uint8_t nimbleshale_store_start(struct nimbleshale_store *store, uint32_t tick, uint32_t key, uint32_t weight,
                                              uint32_t *number)
{
    return nimbleshale_start(NIMBLESHALE_LENT, tick, key, weight, number);
}

/* nimbleshale_end on a store. */
NIMBLESHALE_MUST_USE
static inline uint8_t nimbleshale_store_end(struct nimbleshale_store *store, uint32_t tick, uint32_t number)
{
    return nimbleshale_end(NIMBLESHALE_LENT, tick, number);
}

/* nimbleshale_question on a store. */
NIMBLESHALE_MUST_USE
static inline uint8_t nimbleshale_store_question(const struct nimbleshale_store *store, uint32_t k1, uint32_t k2, uint32_t t1, uint32_t t2,
                                                 struct nimbleshale_totals *totals)
{
    return nimbleshale_question(NIMBLESHALE_LENT, k1, k2, t1, t2, &totals->count, &totals->sum, &totals->pages);
}

/* nimbleshale_bat_time on a store. */
NIMBLESHALE_MUST_USE
static inline uint8_t nimbleshale_store_bat_time(const struct nimbleshale_store *store, uint32_t k1, uint32_t k2, uint32_t t1, uint32_t t2,
                                                 struct nimbleshale_time *time)
{
    return nimbleshale_bat_time(NIMBLESHALE_LENT, k1, k2, t1, t2, &time->total, &time->pages);
}

/* nimbleshale_lookup_starts on a store. */
NIMBLESHALE_MUST_USE
static inline uint8_t nimbleshale_store_lookup_starts(const struct nimbleshale_store *store, uint32_t t, uint32_t k,
                                                      struct nimbleshale_totals *totals)
{
    return nimbleshale_lookup_starts(NIMBLESHALE_LENT, t, k, &totals->count, &totals->sum, &totals->pages);
}

/* nimbleshale_lookup_ends on a store. */
NIMBLESHALE_MUST_USE
static inline uint8_t nimbleshale_store_lookup_ends(const struct nimbleshale_store *store, uint32_t t, uint32_t k,
                                                    struct nimbleshale_totals *totals)
{
    return nimbleshale_lookup_ends(NIMBLESHALE_LENT, t, k, &totals->count, &totals->sum, &totals->pages);
}

/* nimbleshale_lookup_time on a store. */
NIMBLESHALE_MUST_USE
static inline uint8_t nimbleshale_store_lookup_time(const struct nimbleshale_store *store, uint32_t t, uint32_t k, struct nimbleshale_line *line)
{
    return nimbleshale_lookup_time(NIMBLESHALE_LENT, t, k, &line->factor, &line->constant, &line->pages);
}

/* nimbleshale_commands on a store. */
NIMBLESHALE_MUST_USE
static inline uint8_t nimbleshale_store_commands(struct nimbleshale_store *store, const uint8_t *input, size_t input_length, uint8_t ended,
                                                 uint8_t *out, size_t out_length, size_t *taken, size_t *written)
{
    return nimbleshale_commands(NIMBLESHALE_LENT, input, input_length, ended, out, out_length, taken, written);
}

/* nimbleshale_burst on a store. */
NIMBLESHALE_MUST_USE
static inline uint8_t nimbleshale_store_burst(struct nimbleshale_store *store, const uint8_t *events, size_t events_length, uint64_t *results,
                                              size_t results_length)
{
    return nimbleshale_burst(NIMBLESHALE_LENT, events, events_length, results, results_length);
}

/* nimbleshale_block_write on a store. */
static inline void nimbleshale_store_block_write(struct nimbleshale_store *store, uint8_t block[NIMBLESHALE_BLOCK_BYTES], size_t offset,
                                                 uint8_t value)
{
    nimbleshale_block_write(block, offset, value, NIMBLESHALE_LENT);
}

#undef NIMBLESHALE_LENT

/* One open pass. */
struct nimbleshale_pass {
    uint32_t number;
    uint32_t key;
    uint32_t weight;
    uint32_t start;
};

/* The open pass in a place, 0 for the oldest. Places from the number of open passes on are zero; the place is below NIMBLESHALE_OPEN_PASSES. */
static inline struct nimbleshale_pass nimbleshale_store_pass(const struct nimbleshale_store *store, uint32_t place)
{
    const uint32_t *numbers = store->head + NIMBLESHALE_HEAD_PASSES + 4 * place;
    struct nimbleshale_pass pass;
    pass.number = numbers[0];
    pass.key = numbers[1];
    pass.weight = numbers[2];
    pass.start = numbers[3];
    return pass;
}

/*
 * A wide number for a call, such as the tick of a 64-bit clock. One that does not fit becomes 4,294,967,295, which every call refuses, as a
 * tick, a key, a weight or the number of a pass. As t2 of a question or a bat-time it is accepted, and means what the wide number meant: to the
 * last tick.
 */
static inline uint32_t nimbleshale_narrowed(uint64_t wide)
{
    return wide > 4294967295u ? 4294967295u : wide & 4294967295u;
}

/* A number in one byte or several, the lowest first. One that does not fit becomes the highest that does: as a key or a weight in two bytes that is
 * refused, where the same number cut short might be accepted. */
static inline void nimbleshale_event_number(uint8_t *bytes, uint32_t number, int count)
{
    int at;
    if (count < 4 && number >> 8 * count != 0)
        number = 4294967295u;
    for (at = 0; at < count; at++)
        bytes[at] = number >> 8 * at & 255u;
}

/* Writes the event of a start, for a burst. */
static inline void nimbleshale_event_start(uint8_t event[NIMBLESHALE_EVENT_BYTES], uint32_t tick, uint32_t key, uint32_t weight)
{
    event[0] = NIMBLESHALE_COMMAND_START;
    nimbleshale_event_number(event + 1, tick, 4);
    nimbleshale_event_number(event + 5, key, 2);
    nimbleshale_event_number(event + 7, weight, 2);
}

/* Writes the event of an end, for a burst. */
static inline void nimbleshale_event_end(uint8_t event[NIMBLESHALE_EVENT_BYTES], uint32_t tick, uint32_t number)
{
    event[0] = NIMBLESHALE_COMMAND_END;
    nimbleshale_event_number(event + 1, tick, 4);
    nimbleshale_event_number(event + 5, number, 4);
}

/* A refusal in a few words, for a log. */
static inline const char *nimbleshale_refusal_text(uint8_t refusal)
{
    switch (refusal) {
    case NIMBLESHALE_ACCEPTED: return "accepted";
    case NIMBLESHALE_REFUSED_KEY: return "key or k1 above 29,999, or k2 above 30,000";
    case NIMBLESHALE_REFUSED_BAND: return "k1 not below k2";
    case NIMBLESHALE_REFUSED_WEIGHT: return "weight 0 or above 10,000";
    case NIMBLESHALE_REFUSED_TICK: return "tick 4,294,967,295";
    case NIMBLESHALE_REFUSED_INTERVAL: return "t1 not below t2";
    case NIMBLESHALE_REFUSED_COMMAND: return "unknown command byte";
    case NIMBLESHALE_REFUSED_CUT_SHORT: return "command cut short";
    case NIMBLESHALE_REFUSED_MEMORY: return "page table under 260 words or empty root list";
    case NIMBLESHALE_REFUSED_BURST: return "burst over 256 events, cut short, or with too few result words";
    case NIMBLESHALE_REFUSED_HEAD: return "head that doesn't fit";
    case NIMBLESHALE_REFUSED_EARLIER: return "tick before the last tick";
    case NIMBLESHALE_REFUSED_NOT_OPEN: return "no open pass of that number";
    case NIMBLESHALE_REFUSED_ALL_OPEN: return "64 passes open";
    case NIMBLESHALE_REFUSED_ALL_STARTED: return "1,000,000 passes started";
    case NIMBLESHALE_REFUSED_SPOILED: return "spoiled page met";
    case NIMBLESHALE_REFUSED_NO_PAGES: return "too few pages left";
    case NIMBLESHALE_REFUSED_NO_ROOT: return "root list full";
    default: return "unknown refusal";
    }
}

#endif
