/* What the header's short calls hand to the library. The eleven functions that they call are this program's own, under the library's names: each notes
 * all that it is handed. (The three others of the fourteen get no store, and have no short call.) A store holds different addresses and lengths
 * throughout, so whatever is handed in another place is found.
 *
 * No archive is linked. tests/lengths.c makes the short calls on one. */
#include <nimbleshale.h>
#include <stdio.h>
#include <string.h>

static unsigned long compared, differed;

enum call { OPEN, START, END, COMMANDS, BURST, BLOCK_WRITE, QUESTION, BAT_TIME, LOOKUP_STARTS, LOOKUP_ENDS, LOOKUP_TIME, CALLS };

static const char *const names[CALLS] = {"open", "start", "end", "commands", "burst", "block_write", "question", "bat_time", "lookup_starts", "lookup_ends",
                                         "lookup_time"};

/* What a call is handed. */
struct handed {
    enum call call;
    const void *head;
    const void *slices[6];
    size_t lengths[6];
    uint32_t arguments[4];
    /* The input and the room for answers of a packet, or the events and the result words of a burst; or a register block, and in the place of a
     * length its offset. */
    const void *own_slices[2];
    size_t own_lengths[2];
    const void *results[3];
};

/* What the latest call was handed, and how many calls there were. */
static struct handed found;
static unsigned calls;

/* A call answers what no other does. */
static uint8_t answer_of(enum call call)
{
    return (uint8_t)(100 + call);
}

static uint8_t note(enum call call, const struct handed *handed)
{
    calls++;
    found = *handed;
    found.call = call;
    return answer_of(call);
}

/* The parameters that every function has, and what is noted of them. What a start does not write of ends is const, and the other way round. */
#define LENT(of_starts, of_ends) uint32_t head[NIMBLESHALE_HEAD_NUMBERS], SLICES(of_starts, of_ends, )
#define SHOWN const uint32_t head[NIMBLESHALE_HEAD_NUMBERS], SLICES(const, const, const)
#define SLICES(of_starts, of_ends, of_time) \
    of_starts uint64_t *start_table, size_t start_table_length, of_starts uint64_t *start_roots, size_t start_roots_length, \
    of_ends uint64_t *end_table, size_t end_table_length, of_ends uint64_t *end_roots, size_t end_roots_length, \
    of_time uint64_t *time_table, size_t time_table_length, of_time uint64_t *time_roots, size_t time_roots_length
#define NOTED \
    .head = head, .slices = {start_table, start_roots, end_table, end_roots, time_table, time_roots}, \
    .lengths = {start_table_length, start_roots_length, end_table_length, end_roots_length, time_table_length, time_roots_length}

uint8_t nimbleshale_open(LENT(, ))
{
    const struct handed handed = {NOTED};
    return note(OPEN, &handed);
}

uint8_t nimbleshale_start(LENT(, const), uint32_t tick, uint32_t key, uint32_t weight, uint32_t *number)
{
    const struct handed handed = {NOTED, .arguments = {tick, key, weight}, .results = {number}};
    return note(START, &handed);
}

uint8_t nimbleshale_end(LENT(const, ), uint32_t tick, uint32_t number)
{
    const struct handed handed = {NOTED, .arguments = {tick, number}};
    return note(END, &handed);
}

uint8_t nimbleshale_commands(LENT(, ), const uint8_t *input, size_t input_length, uint8_t ended, uint8_t *out, size_t out_length, size_t *taken,
                             size_t *written)
{
    const struct handed handed = {NOTED, .arguments = {ended}, .own_slices = {input, out},
                                  .own_lengths = {input_length, out_length}, .results = {taken, written}};
    return note(COMMANDS, &handed);
}

uint8_t nimbleshale_burst(LENT(, ), const uint8_t *events, size_t events_length, uint64_t *results, size_t results_length)
{
    const struct handed handed = {NOTED, .own_slices = {events, results}, .own_lengths = {events_length, results_length}};
    return note(BURST, &handed);
}

void nimbleshale_block_write(uint8_t block[NIMBLESHALE_BLOCK_BYTES], size_t offset, uint8_t value, LENT(, ))
{
    const struct handed handed = {NOTED, .arguments = {value}, .own_slices = {block}, .own_lengths = {offset}};
    note(BLOCK_WRITE, &handed);
}

uint8_t nimbleshale_question(SHOWN, uint32_t k1, uint32_t k2, uint32_t t1, uint32_t t2, uint64_t *count, uint64_t *sum, uint32_t *pages)
{
    const struct handed handed = {NOTED, .arguments = {k1, k2, t1, t2}, .results = {count, sum, pages}};
    return note(QUESTION, &handed);
}

uint8_t nimbleshale_bat_time(SHOWN, uint32_t k1, uint32_t k2, uint32_t t1, uint32_t t2, uint64_t *total, uint32_t *pages)
{
    const struct handed handed = {NOTED, .arguments = {k1, k2, t1, t2}, .results = {total, pages}};
    return note(BAT_TIME, &handed);
}

uint8_t nimbleshale_lookup_starts(SHOWN, uint32_t t, uint32_t k, uint64_t *count, uint64_t *sum, uint32_t *pages)
{
    const struct handed handed = {NOTED, .arguments = {t, k}, .results = {count, sum, pages}};
    return note(LOOKUP_STARTS, &handed);
}

uint8_t nimbleshale_lookup_ends(SHOWN, uint32_t t, uint32_t k, uint64_t *count, uint64_t *sum, uint32_t *pages)
{
    const struct handed handed = {NOTED, .arguments = {t, k}, .results = {count, sum, pages}};
    return note(LOOKUP_ENDS, &handed);
}

uint8_t nimbleshale_lookup_time(SHOWN, uint32_t t, uint32_t k, uint64_t *factor, uint64_t *constant, uint32_t *pages)
{
    const struct handed handed = {NOTED, .arguments = {t, k}, .results = {factor, constant, pages}};
    return note(LOOKUP_TIME, &handed);
}

/* The store, and where results go. The arguments of a call are 31, 32 and on. */
static uint64_t memory[6];
static struct nimbleshale_store store;
static struct nimbleshale_totals totals;
static struct nimbleshale_time bat_time;
static struct nimbleshale_line line;
static uint32_t number;
static uint8_t input[1], out[1], events[1], block[NIMBLESHALE_BLOCK_BYTES];
static uint64_t results[1];
static size_t taken, written;

static void fill_store(void)
{
    store.start_table = &memory[0];
    store.start_table_length = 21;
    store.start_roots = &memory[1];
    store.start_roots_length = 22;
    store.end_table = &memory[2];
    store.end_table_length = 23;
    store.end_roots = &memory[3];
    store.end_roots_length = 24;
    store.time_table = &memory[4];
    store.time_table_length = 25;
    store.time_roots = &memory[5];
    store.time_roots_length = 26;
}

static uint8_t make(enum call call)
{
    switch (call) {
    case OPEN: return nimbleshale_store_open(&store);
    case START: return nimbleshale_store_start(&store, 31, 32, 33, &number);
    case END: return nimbleshale_store_end(&store, 31, 32);
    case COMMANDS: return nimbleshale_store_commands(&store, input, 41, 31, out, 42, &taken, &written);
    case BURST: return nimbleshale_store_burst(&store, events, 41, results, 42);
    case BLOCK_WRITE:
        /* It answers nothing. */
        nimbleshale_store_block_write(&store, block, 41, 31);
        return answer_of(call);
    case QUESTION: return nimbleshale_store_question(&store, 31, 32, 33, 34, &totals);
    case BAT_TIME: return nimbleshale_store_bat_time(&store, 31, 32, 33, 34, &bat_time);
    case LOOKUP_STARTS: return nimbleshale_store_lookup_starts(&store, 31, 32, &totals);
    case LOOKUP_ENDS: return nimbleshale_store_lookup_ends(&store, 31, 32, &totals);
    case LOOKUP_TIME: return nimbleshale_store_lookup_time(&store, 31, 32, &line);
    default: return 255;
    }
}

static void expect(enum call call, const char *what, size_t place, int same)
{
    compared++;
    if (same)
        return;
    differed++;
    printf("differs: nimbleshale_store_%s hands on another %s %lu\n", names[call], what, (unsigned long)place);
}

/* A call's arguments and results; a place that it does not have is 0. */
static void expect_own(enum call call)
{
    static const uint32_t arguments[CALLS] = {0, 3, 2, 1, 0, 1, 4, 4, 2, 2, 2};
    const void *single[3] = {NULL, NULL, NULL}, *slices[2] = {NULL, NULL};
    if (call == START)
        single[0] = &number;
    if (call == COMMANDS) {
        single[0] = &taken;
        single[1] = &written;
        slices[0] = input;
        slices[1] = out;
    }
    if (call == BURST) {
        slices[0] = events;
        slices[1] = results;
    }
    if (call == BLOCK_WRITE)
        slices[0] = block;
    if (call == QUESTION || call == LOOKUP_STARTS || call == LOOKUP_ENDS) {
        single[0] = &totals.count;
        single[1] = &totals.sum;
        single[2] = &totals.pages;
    }
    if (call == BAT_TIME) {
        single[0] = &bat_time.total;
        single[1] = &bat_time.pages;
    }
    if (call == LOOKUP_TIME) {
        single[0] = &line.factor;
        single[1] = &line.constant;
        single[2] = &line.pages;
    }
    for (uint32_t at = 0; at < 4; at++)
        expect(call, "argument", at, found.arguments[at] == (at < arguments[call] ? 31 + at : 0));
    for (size_t at = 0; at < 3; at++)
        expect(call, "result", at, found.results[at] == single[at]);
    for (size_t at = 0; at < 2; at++) {
        expect(call, "slice of its own", at, found.own_slices[at] == slices[at]);
        expect(call, "length of its own", at, found.own_lengths[at] == (slices[at] != NULL ? 41 + at : 0));
    }
}

static void try_call(enum call call)
{
    memset(&found, 0xff, sizeof found);
    calls = 0;
    expect(call, "answer", 0, make(call) == answer_of(call));
    expect(call, "call", 0, calls == 1 && found.call == call);
    expect(call, "head", 0, found.head == store.head);
    for (size_t at = 0; at < 6; at++) {
        expect(call, "slice", at, found.slices[at] == &memory[at]);
        expect(call, "length", at, found.lengths[at] == 21 + at);
    }
    expect_own(call);
}

int main(void)
{
    fill_store();
    for (int call = 0; call < CALLS; call++)
        try_call((enum call)call);
    printf("handed: %lu compared, %lu differed\n", compared, differed);
    return differed != 0;
}
