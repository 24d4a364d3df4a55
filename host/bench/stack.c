/*
 * How deep each call goes into the stack. Calls are made on a thread whose stack is memory of this program: the part below the caller is
 * filled with a pattern before each call, and the lowest byte that is no longer the pattern tells how far the call went. The figure has
 * what the caller pushes as arguments in it.
 *
 * The store is grown with rising keys to trees four pages high, and each call is measured; the deepest one counts. Then it is opened anew and
 * grown again by packets of one command each, a third time by bursts of one event each, and a fourth time by commands through a register block.
 */
#define _POSIX_C_SOURCE 200809L
#include <nimbleshale.h>
#include <pthread.h>
#include <stdio.h>

#define PAGES 8000
#define TIME_PAGES 16000
#define PASSES 29000u
#define PAINTED 65536
#define PATTERN 0xa5a5a5a5a5a5a5a5u

static uint64_t start_table[NIMBLESHALE_TABLE_WORDS(PAGES)], end_table[NIMBLESHALE_TABLE_WORDS(PAGES)];
static uint64_t start_roots[PAGES], end_roots[PAGES];
static uint64_t time_table[NIMBLESHALE_TABLE_WORDS(TIME_PAGES)], time_roots[TIME_PAGES];
static uint64_t stack_memory[131072 / 4];

static struct nimbleshale_store store;
static struct nimbleshale_totals totals;
static struct nimbleshale_time bat_time;
static struct nimbleshale_line line;
static uint32_t tick, key, first_key, number;

/* The packet that is measured next, and the answer to it. */
static uint8_t packet[NIMBLESHALE_LONGEST_COMMAND], answer[NIMBLESHALE_LONGEST_ANSWER];
static size_t packet_length, taken, written;
static uint64_t results[NIMBLESHALE_RESULT_WORDS];

/* The register block, and the byte of it that is read or written next. */
static uint8_t block[NIMBLESHALE_BLOCK_BYTES];
static size_t offset;
static uint8_t value;

/* A function with a frame of its own. */
#define FRAMED __attribute__((noinline))

/* The stack pointer of the caller when it makes a call. */
static unsigned char *caller;

/* Finds it: the saved frame pointer of this function stands two words below. */
static FRAMED uint8_t find_caller(void)
{
    caller = (unsigned char *)__builtin_frame_address(0) + 16;
    return 0;
}

static FRAMED uint8_t call_open(void)
{
    return nimbleshale_store_open(&store);
}

static FRAMED uint8_t call_start(void)
{
    return nimbleshale_store_start(&store, tick, key, 100, &number);
}

static FRAMED uint8_t call_end(void)
{
    return nimbleshale_store_end(&store, tick, number);
}

static FRAMED uint8_t call_question(void)
{
    return nimbleshale_store_question(&store, first_key, key + 2, tick / 2, tick + 1, &totals);
}

static FRAMED uint8_t call_bat_time(void)
{
    return nimbleshale_store_bat_time(&store, first_key, key + 2, tick / 2, tick + 1, &bat_time);
}

static FRAMED uint8_t call_lookup_starts(void)
{
    return nimbleshale_store_lookup_starts(&store, tick, key, &totals);
}

static FRAMED uint8_t call_lookup_ends(void)
{
    return nimbleshale_store_lookup_ends(&store, tick, key, &totals);
}

static FRAMED uint8_t call_lookup_time(void)
{
    return nimbleshale_store_lookup_time(&store, tick, key, &line);
}

/* A packet of one command. It is refused where the command is, or where not all of it is taken. */
static FRAMED uint8_t call_commands(void)
{
    uint8_t over = nimbleshale_store_commands(&store, packet, packet_length, 0, answer, sizeof answer, &taken, &written);
    return over != 0 || taken != packet_length || written == 0 || answer[0] != 0;
}

/* A burst of one event, which a packet of its command is too. It is refused where the event is. */
static FRAMED uint8_t call_burst(void)
{
    uint8_t refusal = nimbleshale_store_burst(&store, packet, packet_length, results, NIMBLESHALE_RESULT_WORDS);
    return refusal != 0 || results[0] != 0;
}

static FRAMED uint8_t call_block_reset(void)
{
    nimbleshale_block_reset(block);
    return 0;
}

/* What is read was written just before. */
static FRAMED uint8_t call_block_read(void)
{
    return nimbleshale_block_read(block, offset) != value;
}

/* The mask is 0. */
static FRAMED uint8_t call_block_line(void)
{
    return nimbleshale_block_line(block);
}

/* A write of an operand or, to byte 0, a command. It is refused where the status says so. */
static FRAMED uint8_t call_block_write(void)
{
    nimbleshale_store_block_write(&store, block, offset, value);
    return block[NIMBLESHALE_BLOCK_STATUS];
}

enum {
    FIND_CALLER, OPEN, START, END, QUESTION, BAT_TIME, LOOKUP_STARTS, LOOKUP_ENDS, LOOKUP_TIME, PACKET_START, PACKET_END, PACKET_QUESTION,
    PACKET_BAT_TIME, BURST_START, BURST_END, BLOCK_RESET, BLOCK_READ, BLOCK_LINE, BLOCK_OPERAND, BLOCK_START, BLOCK_END, BLOCK_QUESTION, BLOCK_BAT_TIME,
    CALLS
};

static const struct {
    const char *name;
    uint8_t (*make)(void);
} calls[CALLS] = {
    {"", find_caller},
    {"nimbleshale_open", call_open},
    {"nimbleshale_start", call_start},
    {"nimbleshale_end", call_end},
    {"nimbleshale_question", call_question},
    {"nimbleshale_bat_time", call_bat_time},
    {"nimbleshale_lookup_starts", call_lookup_starts},
    {"nimbleshale_lookup_ends", call_lookup_ends},
    {"nimbleshale_lookup_time", call_lookup_time},
    {"nimbleshale_commands, start", call_commands},
    {"nimbleshale_commands, end", call_commands},
    {"nimbleshale_commands, question", call_commands},
    {"nimbleshale_commands, bat-time", call_commands},
    {"nimbleshale_burst, start", call_burst},
    {"nimbleshale_burst, end", call_burst},
    {"nimbleshale_block_reset", call_block_reset},
    {"nimbleshale_block_read", call_block_read},
    {"nimbleshale_block_line", call_block_line},
    {"nimbleshale_block_write, operand", call_block_write},
    {"nimbleshale_block_write, start", call_block_write},
    {"nimbleshale_block_write, end", call_block_write},
    {"nimbleshale_block_write, question", call_block_write},
    {"nimbleshale_block_write, bat-time", call_block_write},
};

static size_t deepest[CALLS];
static unsigned refused;

/* Paints what is below, makes a call, and looks how far it went. Loops on volatile words: a function would use the stack itself. */
static FRAMED void measure(int which)
{
    volatile uint64_t *top, *bottom, *at;
    size_t depth;
    calls[FIND_CALLER].make();
    top = (volatile uint64_t *)(void *)caller;
    bottom = top - PAINTED / 8;
    for (at = bottom; at < top; at++)
        *at = PATTERN;
    if (calls[which].make() != 0)
        refused++;
    for (at = bottom; at < top && *at == PATTERN;)
        at++;
    depth = (size_t)(top - at) * 8;
    if (depth > deepest[which])
        deepest[which] = depth;
}

/* Questions and bat-times at the tick that has come. One from key 0 on makes half of the lookups, any other both of a pair at once: other functions, of
 * other depth. */
static void measure_questions(void)
{
    first_key = 0;
    measure(QUESTION);
    measure(BAT_TIME);
    first_key = 1 + key / 2;
    measure(QUESTION);
    measure(BAT_TIME);
    measure(LOOKUP_STARTS);
    measure(LOOKUP_ENDS);
    measure(LOOKUP_TIME);
}

static void put(uint32_t operand, int bytes)
{
    for (; bytes > 0; bytes--, operand /= 256)
        packet[packet_length++] = (uint8_t)(operand % 256);
}

/* The command byte and its first operand; the others follow. */
static void begin_packet(uint32_t command, uint32_t operand, int bytes)
{
    packet_length = 0;
    put(command, 1);
    put(operand, bytes);
}

/* How the starts and ends of a store are made. */
enum way { BY_CALLS, BY_PACKETS, BY_BURSTS, BY_BLOCK, WAYS };

/* The packet's bytes written to the block, operands first, and its command byte last. */
static void measure_block(int which)
{
    for (offset = 1; offset < packet_length; offset++) {
        value = packet[offset];
        measure(BLOCK_OPERAND);
        measure(BLOCK_READ);
        measure(BLOCK_LINE);
    }
    offset = 0;
    value = packet[0];
    measure(which);
}

/* A command whose bytes are in the packet. */
static void measure_command(int which, enum way way)
{
    if (way == BY_BLOCK)
        measure_block(which);
    else
        measure(which);
}

static void put_band(uint32_t command, uint32_t from_key)
{
    begin_packet(command, from_key, 2);
    put(key + 2, 2);
    put(tick / 2, 4);
    put(tick + 1, 4);
}

static void measure_packet_questions(uint32_t from_key, enum way way)
{
    put_band(NIMBLESHALE_COMMAND_QUESTION, from_key);
    measure_command(way == BY_BLOCK ? BLOCK_QUESTION : PACKET_QUESTION, way);
    put_band(NIMBLESHALE_COMMAND_BAT_TIME, from_key);
    measure_command(way == BY_BLOCK ? BLOCK_BAT_TIME : PACKET_BAT_TIME, way);
}

/* A pass starts and ends. */
static void measure_pass(uint32_t pass, enum way way)
{
    static const int starts[WAYS] = {START, PACKET_START, BURST_START, BLOCK_START}, ends[WAYS] = {END, PACKET_END, BURST_END, BLOCK_END};
    tick = 10 * pass + 1;
    key = pass + 1;
    begin_packet(1, tick, 4);
    put(key, 2);
    put(100, 2);
    measure_command(starts[way], way);
    tick += 5;
    begin_packet(2, tick, 4);
    put(pass, 4);
    measure_command(ends[way], way);
}

static void *run(void *unused)
{
    uint32_t pass;
    int way;
    (void)unused;
    for (way = BY_CALLS; way < WAYS; way++) {
        measure(OPEN);
        measure(BLOCK_RESET);
        for (pass = 0; pass < PASSES; pass++) {
            measure_pass(pass, (enum way)way);
            if (pass % 50 != 0 && pass != PASSES - 1)
                continue;
            if (way == BY_CALLS)
                measure_questions();
            if (way == BY_PACKETS || way == BY_BLOCK) {
                measure_packet_questions(0, (enum way)way);
                measure_packet_questions(1 + key / 2, (enum way)way);
            }
        }
    }
    return NULL;
}

/* How many pages high a tree is, of which the head has the roots used in a place. */
static unsigned height(const uint64_t *table, const uint64_t *roots, size_t place)
{
    return (unsigned)table[NIMBLESHALE_PAGE_WORDS * (size_t)(roots[store.head[place] - 1] >> 32)] + 1;
}

int main(void)
{
    pthread_attr_t attributes;
    pthread_t thread;
    int call;
    store.start_table = start_table;
    store.end_table = end_table;
    store.time_table = time_table;
    store.start_table_length = store.end_table_length = NIMBLESHALE_TABLE_WORDS(PAGES);
    store.time_table_length = NIMBLESHALE_TABLE_WORDS(TIME_PAGES);
    store.start_roots = start_roots;
    store.end_roots = end_roots;
    store.start_roots_length = store.end_roots_length = PAGES;
    store.time_roots = time_roots;
    store.time_roots_length = TIME_PAGES;
    if (pthread_attr_init(&attributes) != 0 || pthread_attr_setstack(&attributes, stack_memory, sizeof stack_memory) != 0 ||
        pthread_create(&thread, &attributes, run, NULL) != 0 || pthread_join(thread, NULL) != 0) {
        perror("thread");
        return 2;
    }
    printf("\nStack below the caller, arguments included; deepest of %u starts and ends each way, trees %u, %u and %u pages high:\n", 2 * PASSES,
           height(start_table, start_roots, NIMBLESHALE_HEAD_START_ROOTS), height(end_table, end_roots, NIMBLESHALE_HEAD_END_ROOTS),
           height(time_table, time_roots, NIMBLESHALE_HEAD_TIME_ROOTS));
    for (call = OPEN; call < CALLS; call++)
        printf("%-36s%6lu bytes\n", calls[call].name, (unsigned long)deepest[call]);
    return refused != 0;
}
