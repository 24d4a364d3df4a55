/* Runs the trials of host/trials over the library: each step of each file, on memory that ends right before a page that may not be touched.
 * Every answer and everything that is looked at is compared. host/trials/README.md says what a step is; the tables of forms have all of them.
 *
 * trials FILE.. */
#define _DEFAULT_SOURCE
#include "lent.h"

#define UNTOUCHED 0xa5a5a5a5u
#define OPEN_END 4294967295u
#define SHOWN 50
#define MOST_WORDS 16
#define MOST_QUEUED 300
#define WORDS_BEHIND 3

static unsigned long trials, calls, compared, differed;

/* The step that is at hand, for messages: its file, its line, its text, and which of its calls, where it makes several. */
static const char *file_name;
static unsigned long line_number, turn;
static char text[256];

/* The trial that is at hand, if one is: its store and its register block, whether memory is lent to it yet, which tree its looks and writes are of, and
 * what was compared before it began. */
static int is_begun, is_lent;
static struct nimbleshale_store store;
static uint8_t *block;
static enum { OF_STARTS, OF_ENDS, OF_TIME } tree;
static unsigned long compared_before;

/* A step that cannot be taken. */
static void fault(const char *what)
{
    printf("%s:%lu: %s: %s\n", file_name, line_number, what, text);
    exit(2);
}

static void say_number(uint64_t number)
{
    if (number == UNTOUCHED)
        printf("nothing");
    else
        printf("%llu", (unsigned long long)number);
}

static void expect(const char *what, uint64_t found, uint64_t wanted)
{
    compared++;
    if (found == wanted)
        return;
    if (++differed > SHOWN)
        return;
    printf("differs: %s:%lu: %s: ", file_name, line_number, text);
    if (turn > 0)
        printf("call %lu, ", turn);
    printf("%s: found ", what);
    say_number(found);
    printf(", wanted ");
    say_number(wanted);
    printf("\n");
}

/* The calls, with how many arguments each has. */
enum call { OPEN, START, END, QUESTION, BAT_TIME, LOOKUP_STARTS, LOOKUP_ENDS, LOOKUP_TIME };

static const size_t arguments[] = {0, 3, 2, 4, 4, 2, 2, 2};

/* What a call answers. A result that it does not give stays as it was. */
struct answer {
    uint8_t refusal;
    uint32_t number;
    struct nimbleshale_totals totals;
    struct nimbleshale_time time;
    struct nimbleshale_line line;
};

static const struct answer no_result = {0, UNTOUCHED, {UNTOUCHED, UNTOUCHED, UNTOUCHED}, {UNTOUCHED, UNTOUCHED}, {UNTOUCHED, UNTOUCHED, UNTOUCHED}};

static struct answer make(enum call call, const uint32_t *given)
{
    struct answer found = no_result;
    switch (call) {
    case OPEN: found.refusal = nimbleshale_store_open(&store); break;
    case START: found.refusal = nimbleshale_store_start(&store, given[0], given[1], given[2], &found.number); break;
    case END: found.refusal = nimbleshale_store_end(&store, given[0], given[1]); break;
    case QUESTION: found.refusal = nimbleshale_store_question(&store, given[0], given[1], given[2], given[3], &found.totals); break;
    case BAT_TIME: found.refusal = nimbleshale_store_bat_time(&store, given[0], given[1], given[2], given[3], &found.time); break;
    case LOOKUP_STARTS: found.refusal = nimbleshale_store_lookup_starts(&store, given[0], given[1], &found.totals); break;
    case LOOKUP_ENDS: found.refusal = nimbleshale_store_lookup_ends(&store, given[0], given[1], &found.totals); break;
    case LOOKUP_TIME: found.refusal = nimbleshale_store_lookup_time(&store, given[0], given[1], &found.line); break;
    }
    return found;
}

/* Makes a call and compares all that it answers. One that is refused, or only reads, must leave the head and every word as they were. */
static void try_call(enum call call, const uint32_t *given, const struct answer *wanted)
{
    uint64_t before = digest_store(&store);
    struct answer found = make(call, given);
    calls++;
    expect("refusal", found.refusal, wanted->refusal);
    expect("number", found.number, wanted->number);
    expect("count", found.totals.count, wanted->totals.count);
    expect("sum", found.totals.sum, wanted->totals.sum);
    expect("pages opened", found.totals.pages, wanted->totals.pages);
    expect("total", found.time.total, wanted->time.total);
    expect("pages opened", found.time.pages, wanted->time.pages);
    expect("factor", found.line.factor, wanted->line.factor);
    expect("constant", found.line.constant, wanted->line.constant);
    expect("pages opened", found.line.pages, wanted->line.pages);
    if (wanted->refusal != 0 || call >= QUESTION)
        expect("digest of head and memory", digest_store(&store), before);
}

/* A wide number of a step, which takes two places: its lower half and its upper half. */
static uint64_t wide(const uint32_t *n)
{
    return n[0] + ((uint64_t)n[1] << 32);
}

/* A call with its arguments, and then what it answers. */
static void try_accepted(enum call call, const uint32_t *numbers)
{
    const uint32_t *results = numbers + arguments[call];
    struct answer wanted = no_result;
    switch (call) {
    case OPEN: case END: break;
    case START: wanted.number = results[0]; break;
    case QUESTION: case LOOKUP_STARTS: case LOOKUP_ENDS:
        wanted.totals.count = results[0];
        wanted.totals.sum = results[1];
        wanted.totals.pages = results[2];
        break;
    case BAT_TIME:
        wanted.time.total = wide(results);
        wanted.time.pages = results[2];
        break;
    case LOOKUP_TIME:
        wanted.line.factor = wide(results);
        wanted.line.constant = wide(results + 2);
        wanted.line.pages = results[4];
        break;
    }
    try_call(call, numbers, &wanted);
}

static void try_refused(enum call call, const uint32_t *numbers)
{
    struct answer wanted = no_result;
    wanted.refusal = (uint8_t)numbers[arguments[call]];
    if (numbers[arguments[call]] == 0 || numbers[arguments[call]] > 255)
        fault("no number of a refusal");
    try_call(call, numbers, &wanted);
}

/* starts N tick T by D key K by S weight W */
static void try_weighed(const uint32_t *n)
{
    for (turn = 1; turn <= n[0]; turn++) {
        uint32_t at = (uint32_t)turn - 1;
        uint32_t numbers[4] = {n[1] + at * n[2], n[3] + at * n[4], n[5], store.head[NIMBLESHALE_HEAD_STARTED]};
        try_accepted(START, numbers);
    }
}

/* starts N tick T by D key K by S: of weight 100 */
static void try_starts(const uint32_t *n)
{
    const uint32_t numbers[6] = {n[0], n[1], n[2], n[3], n[4], 100};
    try_weighed(numbers);
}

/* ends N tick T by D number P: of the passes numbered on from P */
static void try_ends(const uint32_t *n)
{
    for (turn = 1; turn <= n[0]; turn++) {
        uint32_t at = (uint32_t)turn - 1, numbers[2] = {n[1] + at * n[2], n[3] + at};
        try_accepted(END, numbers);
    }
}

/* scattered N tick T by D point P: the key is the point times 7,919 modulo 30,000, the weight is the point */
static void try_scattered(const uint32_t *n)
{
    for (turn = 1; turn <= n[0]; turn++) {
        uint32_t at = (uint32_t)turn - 1, point = n[3] + at;
        uint32_t numbers[4] = {n[1] + at * n[2], point % 30000 * 7919 % 30000, point, store.head[NIMBLESHALE_HEAD_STARTED]};
        try_accepted(START, numbers);
    }
}

/* lookups starts N tick T key K by S = COUNT SUM PAGES by M */
static void try_lookups(const uint32_t *n)
{
    for (turn = 1; turn <= n[0]; turn++) {
        uint32_t at = (uint32_t)turn - 1;
        uint32_t numbers[5] = {n[1], n[2] + at * n[3], n[4] + at * n[7], n[5] + at * n[7], n[6]};
        try_accepted(LOOKUP_STARTS, numbers);
    }
}

/* The queue: events that wait for a burst, and the refusal and the number that each must get. */
static uint8_t queue[NIMBLESHALE_EVENT_BYTES * MOST_QUEUED];
static uint32_t wanted_of[MOST_QUEUED][2];
static uint32_t queued;

/* A place for one more event, which must get this. */
static uint8_t *queue_event(uint32_t refusal, uint32_t number)
{
    if (queued == MOST_QUEUED)
        fault("too many events in the queue");
    wanted_of[queued][0] = refusal;
    wanted_of[queued][1] = number;
    return queue + NIMBLESHALE_EVENT_BYTES * queued++;
}

static void queue_start(const uint32_t *n)
{
    nimbleshale_event_start(queue_event(0, n[3]), n[0], n[1], n[2]);
}

static void queue_start_refused(const uint32_t *n)
{
    nimbleshale_event_start(queue_event(n[3], 0), n[0], n[1], n[2]);
}

static void queue_end(const uint32_t *n)
{
    nimbleshale_event_end(queue_event(0, 0), n[0], n[1]);
}

static void queue_end_refused(const uint32_t *n)
{
    nimbleshale_event_end(queue_event(n[2], 0), n[0], n[1]);
}

/* queue kind B T K W refused R: a start under another kind */
static void queue_kind(const uint32_t *n)
{
    uint8_t *event = queue_event(n[4], 0);
    if (n[0] > 255)
        fault("no first byte");
    nimbleshale_event_start(event, n[1], n[2], n[3]);
    event[0] = (uint8_t)n[0];
}

/* queue starts N tick T by D key K by S = P: of weight 100, numbered on from P */
static void queue_starts(const uint32_t *n)
{
    for (uint32_t at = 0; at < n[0]; at++)
        nimbleshale_event_start(queue_event(0, n[5] + at), n[1] + at * n[2], n[3] + at * n[4], 100);
}

/* queue ends N tick T by D number P: of the passes numbered on from P */
static void queue_ends(const uint32_t *n)
{
    for (uint32_t at = 0; at < n[0]; at++)
        nimbleshale_event_end(queue_event(0, 0), n[1] + at * n[2], n[3] + at);
}

/* The result words of a burst, which hold 900 + place before it. */
static uint64_t list[NIMBLESHALE_RESULT_WORDS * MOST_QUEUED + WORDS_BEHIND];

/* Hands over bytes of the front of the queue, and result words. */
static uint8_t make_burst(uint32_t bytes, uint32_t words)
{
    uint8_t *events, refusal;
    uint64_t *results;
    if (bytes > NIMBLESHALE_EVENT_BYTES * queued || words > sizeof list / sizeof *list)
        fault("no such burst");
    events = lend(bytes);
    results = lend(8 * (size_t)words);
    for (uint32_t at = 0; at < words; at++)
        results[at] = 900 + at;
    memcpy(events, queue, bytes);
    refusal = nimbleshale_store_burst(&store, events, bytes, results, words);
    calls++;
    expect("events that are altered", memcmp(events, queue, bytes) != 0, 0);
    memcpy(list, results, 8 * (size_t)words);
    give_back(events, bytes);
    give_back(results, 8 * (size_t)words);
    return refusal;
}

/* burst bytes B words W: bytes of the front of the queue, which are then gone from it, and result words. Each event gets what was said when it was
 * queued. */
static void try_burst_of(const uint32_t *n)
{
    const uint32_t events = n[0] / NIMBLESHALE_EVENT_BYTES;
    expect("refusal", make_burst(n[0], n[1]), 0);
    for (turn = 1; turn <= events; turn++) {
        expect("refusal of the event", list[2 * turn - 2], wanted_of[turn - 1][0]);
        expect("number of the event", list[2 * turn - 1], wanted_of[turn - 1][1]);
    }
    turn = 0;
    for (uint32_t at = NIMBLESHALE_RESULT_WORDS * events; at < n[1]; at++)
        expect("a word behind the results", list[at], 900 + at);
    queued -= events;
    memmove(queue, queue + NIMBLESHALE_EVENT_BYTES * events, NIMBLESHALE_EVENT_BYTES * queued);
    memmove(wanted_of, wanted_of + events, sizeof *wanted_of * queued);
}

/* burst: the whole queue, with some words more than it needs */
static void try_burst(const uint32_t *n)
{
    const uint32_t whole[2] = {NIMBLESHALE_EVENT_BYTES * queued, NIMBLESHALE_RESULT_WORDS * queued + WORDS_BEHIND};
    (void)n;
    try_burst_of(whole);
}

/* burst bytes B words W refused R: the queue stays, and nothing is written */
static void try_burst_refused(const uint32_t *n)
{
    const uint64_t before = digest_store(&store);
    expect("refusal", make_burst(n[0], n[1]), n[2]);
    for (uint32_t at = 0; at < n[1]; at++)
        expect("a result word", list[at], 900 + at);
    expect("digest of head and memory", digest_store(&store), before);
}

/* The register block, as the radio side has it. */

static void poke_byte(uint32_t offset, uint8_t value)
{
    nimbleshale_store_block_write(&store, block, offset, value);
    calls++;
}

static uint8_t peek_byte(uint32_t offset)
{
    calls++;
    return nimbleshale_block_read(block, offset);
}

static uint8_t checked_byte(uint32_t number)
{
    if (number > 255)
        fault("no byte");
    return (uint8_t)number;
}

/* poke OFFSET VALUE: nothing of the store is written, unless a command is run */
static void poke(const uint32_t *n)
{
    const uint64_t before = digest_store(&store);
    poke_byte(n[0], checked_byte(n[1]));
    if (n[0] != NIMBLESHALE_BLOCK_COMMAND)
        expect("digest of head and memory", digest_store(&store), before);
}

static void see_peek(const uint32_t *n)
{
    expect("byte", peek_byte(n[0]), n[1]);
}

static void see_line(const uint32_t *n)
{
    calls++;
    expect("line", nimbleshale_block_line(block), n[0]);
}

static void reset_block(const uint32_t *n)
{
    (void)n;
    calls++;
    nimbleshale_block_reset(block);
}

/* A number in several bytes, the lowest first, from an operand on. */
static uint32_t poke_number(uint32_t offset, uint32_t number, uint32_t bytes)
{
    uint32_t at;
    for (at = 0; at < bytes; at++)
        poke_byte(offset + at, (uint8_t)(number >> 8 * at & 255));
    return offset + bytes;
}

/* operands start T K W */
static void put_start(const uint32_t *n)
{
    uint32_t at = poke_number(NIMBLESHALE_BLOCK_OPERANDS, n[0], 4);
    poke_number(poke_number(at, n[1], 2), n[2], 2);
}

/* operands end T N */
static void put_end(const uint32_t *n)
{
    poke_number(poke_number(NIMBLESHALE_BLOCK_OPERANDS, n[0], 4), n[1], 4);
}

/* operands question K1 K2 T1 T2: those of a bat-time, too */
static void put_question(const uint32_t *n)
{
    uint32_t at = poke_number(NIMBLESHALE_BLOCK_OPERANDS, n[0], 2);
    at = poke_number(at, n[1], 2);
    poke_number(poke_number(at, n[2], 4), n[3], 4);
}

/* command B = STATUS flags F: one that is refused, or only reads, must leave the head and every word as they were */
static void run_command(const uint32_t *n)
{
    const uint64_t before = digest_store(&store);
    poke_byte(NIMBLESHALE_BLOCK_COMMAND, checked_byte(n[0]));
    expect("status", peek_byte(NIMBLESHALE_BLOCK_STATUS), n[1]);
    expect("flags", peek_byte(NIMBLESHALE_BLOCK_FLAGS), n[2]);
    if (n[1] != 0 || n[0] == NIMBLESHALE_COMMAND_QUESTION || n[0] == NIMBLESHALE_COMMAND_BAT_TIME)
        expect("digest of head and memory", digest_store(&store), before);
}

/* Bytes of the result from a place on: a number, the lowest byte first. */
static uint64_t number_of_result(uint32_t place, uint32_t bytes)
{
    return bytes == 0 ? 0 : peek_byte(NIMBLESHALE_BLOCK_RESULT + place) + 256 * number_of_result(place + 1, bytes - 1);
}

/* The bytes of the result from a place on are all zero. */
static void see_zeros(uint32_t place)
{
    for (; place < NIMBLESHALE_BLOCK_RESULT_BYTES; place++)
        expect("a byte of the result", peek_byte(NIMBLESHALE_BLOCK_RESULT + place), 0);
}

static void see_no_result(const uint32_t *n)
{
    (void)n;
    see_zeros(0);
}

static void see_result_number(const uint32_t *n)
{
    expect("number", number_of_result(0, 4), n[0]);
    see_zeros(4);
}

static void see_result_totals(const uint32_t *n)
{
    expect("count", number_of_result(0, 8), n[0]);
    expect("sum", number_of_result(8, 8), n[1]);
    expect("pages opened", number_of_result(16, 1), n[2]);
}

static void see_result_time(const uint32_t *n)
{
    expect("total", number_of_result(0, 8), wide(n));
    expect("pages opened", number_of_result(8, 1), n[2]);
    see_zeros(9);
}

/* Which tree the steps that look at one, or write one by hand, are of. */

static void take_starts(const uint32_t *n)
{
    (void)n;
    tree = OF_STARTS;
}

static void take_ends(const uint32_t *n)
{
    (void)n;
    tree = OF_ENDS;
}

static void take_time(const uint32_t *n)
{
    (void)n;
    tree = OF_TIME;
}

/* A number of the head that a tree has: the pages that it uses, and behind it the roots. */
static uint32_t *used_of_tree(void)
{
    return store.head + NIMBLESHALE_HEAD_START_PAGES + 2 * tree;
}

/* A word of a page, or of a row of it, in the tree's table. */
static uint64_t *page_word(uint32_t page, uint32_t word)
{
    uint64_t *const tables[3] = {store.start_table, store.end_table, store.time_table};
    const size_t lengths[3] = {store.start_table_length, store.end_table_length, store.time_table_length};
    if (page >= lengths[tree] / NIMBLESHALE_PAGE_WORDS)
        fault("no such page");
    return tables[tree] + NIMBLESHALE_TABLE_WORDS(page) + word;
}

static uint64_t *row_word(uint32_t page, uint32_t place, uint32_t word)
{
    if (place >= 64)
        fault("no such row");
    return page_word(page, 4 + 4 * place + word);
}

static uint32_t checked_place(uint32_t place)
{
    if (place >= NIMBLESHALE_OPEN_PASSES)
        fault("no such place");
    return place;
}

/* What is looked at. */

static void see_used(const uint32_t *n)
{
    expect("pages used", used_of_tree()[0], n[0]);
    expect("roots used", used_of_tree()[1], n[1]);
}

static void see_level(const uint32_t *n)
{
    expect("level", *page_word(n[0], 0), n[1]);
}

static void see_rows(const uint32_t *n)
{
    expect("rows", *page_word(n[0], 1), n[1]);
}

static void see_row(const uint32_t *n)
{
    uint64_t keys = *row_word(n[0], n[1], 0);
    expect("low key", keys % 65536, n[2]);
    expect("high key", keys / 65536 % 65536, n[3]);
    expect("child", keys >> 32, n[4]);
}

static void see_value(const uint32_t *n)
{
    expect("count, or factor", *row_word(n[0], n[1], 2), wide(n + 2));
    expect("sum, or constant", *row_word(n[0], n[1], 3), wide(n + 4));
}

static void see_root(const uint32_t *n)
{
    const uint64_t *const lists[3] = {store.start_roots, store.end_roots, store.time_roots};
    const size_t lengths[3] = {store.start_roots_length, store.end_roots_length, store.time_roots_length};
    if (n[0] >= lengths[tree])
        fault("no such root entry");
    expect("birth", lists[tree][n[0]] % 4294967296u, n[1]);
    expect("page", lists[tree][n[0]] >> 32, n[2]);
}

static void see_pass(const uint32_t *n)
{
    const struct nimbleshale_pass pass = nimbleshale_store_pass(&store, checked_place(n[0]));
    expect("number", pass.number, n[1]);
    expect("key", pass.key, n[2]);
    expect("weight", pass.weight, n[3]);
    expect("start", pass.start, n[4]);
}

/* What is written by hand. */

static void write_used(const uint32_t *n)
{
    used_of_tree()[0] = n[0];
    used_of_tree()[1] = n[1];
}

/* A page's header: page, level, rows, low key, high key. It is born at 0. */
static void write_page(const uint32_t *n)
{
    *page_word(n[0], 0) = n[1];
    *page_word(n[0], 1) = n[2];
    *page_word(n[0], 2) = n[3] + ((uint64_t)n[4] << 16);
    *page_word(n[0], 3) = 0;
}

static void write_life(const uint32_t *n)
{
    *row_word(n[0], n[1], 1) = n[2] + ((uint64_t)n[3] << 32);
}

/* A row, born at 0 and open, with the same count and sum: page, place, low key, high key, child, value. */
static void write_row(const uint32_t *n)
{
    const uint32_t life[4] = {n[0], n[1], 0, OPEN_END};
    *row_word(n[0], n[1], 0) = n[2] + ((uint64_t)n[3] << 16) + ((uint64_t)n[4] << 32);
    *row_word(n[0], n[1], 2) = n[5];
    *row_word(n[0], n[1], 3) = n[5];
    write_life(life);
}

/* A page of 64 live rows of value 1: page, level, low key, high key, where the first row stops, its child. The other rows have one key each,
 * but for the last. */
static void write_full(const uint32_t *n)
{
    const uint32_t header[5] = {n[0], n[1], 64, n[2], n[3]}, first[6] = {n[0], 0, n[2], n[4], n[5], 1};
    uint32_t place;
    write_page(header);
    write_row(first);
    for (place = 1; place < 64; place++) {
        const uint32_t low = n[4] + place - 1, row[6] = {n[0], place, low, place == 63 ? n[3] : low + 1, 0, 1};
        write_row(row);
    }
}

/* A leaf of 64 live rows of value 1 over two keys each. */
static void write_pairs(const uint32_t *n)
{
    const uint32_t header[5] = {n[0], 0, 64, 0, 128};
    uint32_t place;
    write_page(header);
    for (place = 0; place < 64; place++) {
        const uint32_t row[6] = {n[0], place, 2 * place, 2 * place + 2, 0, 1};
        write_row(row);
    }
}

static void write_last(const uint32_t *n)
{
    store.head[NIMBLESHALE_HEAD_LAST] = n[0];
}

static void write_started(const uint32_t *n)
{
    store.head[NIMBLESHALE_HEAD_STARTED] = n[0];
}

static void write_open(const uint32_t *n)
{
    store.head[NIMBLESHALE_HEAD_OPEN] = n[0];
}

static void write_pass(const uint32_t *n)
{
    memcpy(store.head + NIMBLESHALE_HEAD_PASSES + 4 * checked_place(n[0]), n + 1, 4 * sizeof *n);
}

/* memory starts PAGES ROOTS ends PAGES ROOTS time PAGES ROOTS */
static void lend_trees(const uint32_t *n)
{
    int at;
    for (at = 0; at < 6; at++)
        if (is_lent || !is_begun || n[at] > 1000)
            fault("no memory can be lent");
    lend_store(&store, NIMBLESHALE_TABLE_WORDS(n[0]), n[1], NIMBLESHALE_TABLE_WORDS(n[2]), n[3], NIMBLESHALE_TABLE_WORDS(n[4]), n[5]);
    block = lend(NIMBLESHALE_BLOCK_BYTES);
    is_lent = 1;
}

/* memory PAGES ROOTS: for each tree */
static void lend_memory(const uint32_t *n)
{
    const uint32_t numbers[6] = {n[0], n[1], n[0], n[1], n[0], n[1]};
    lend_trees(numbers);
}

/* Every step: its words, with # for a number and @ for a wide one, and what it does. First the calls. */
static const struct {
    const char *words;
    enum call call;
    void (*obey)(enum call, const uint32_t *);
} call_forms[] = {
    {"open", OPEN, try_accepted},
    {"open refused #", OPEN, try_refused},
    {"start # # # = #", START, try_accepted},
    {"start # # # refused #", START, try_refused},
    {"end # #", END, try_accepted},
    {"end # # refused #", END, try_refused},
    {"question # # # # = # # #", QUESTION, try_accepted},
    {"question # # # # refused #", QUESTION, try_refused},
    {"battime # # # # = @ #", BAT_TIME, try_accepted},
    {"battime # # # # refused #", BAT_TIME, try_refused},
    {"lookup starts # # = # # #", LOOKUP_STARTS, try_accepted},
    {"lookup starts # # refused #", LOOKUP_STARTS, try_refused},
    {"lookup ends # # = # # #", LOOKUP_ENDS, try_accepted},
    {"lookup ends # # refused #", LOOKUP_ENDS, try_refused},
    {"lookup time # # = @ @ #", LOOKUP_TIME, try_accepted},
    {"lookup time # # refused #", LOOKUP_TIME, try_refused},
};

static const struct {
    const char *words;
    void (*obey)(const uint32_t *);
} other_forms[] = {
    {"memory # #", lend_memory},
    {"memory starts # # ends # # time # #", lend_trees},
    {"starts # tick # by # key # by #", try_starts},
    {"starts # tick # by # key # by # weight #", try_weighed},
    {"ends # tick # by # number #", try_ends},
    {"scattered # tick # by # point #", try_scattered},
    {"lookups starts # tick # key # by # = # # # by #", try_lookups},
    {"queue start # # # = #", queue_start},
    {"queue start # # # refused #", queue_start_refused},
    {"queue end # #", queue_end},
    {"queue end # # refused #", queue_end_refused},
    {"queue kind # # # # refused #", queue_kind},
    {"queue starts # tick # by # key # by # = #", queue_starts},
    {"queue ends # tick # by # number #", queue_ends},
    {"burst", try_burst},
    {"burst bytes # words #", try_burst_of},
    {"burst bytes # words # refused #", try_burst_refused},
    {"poke # #", poke},
    {"peek # = #", see_peek},
    {"line = #", see_line},
    {"reset", reset_block},
    {"operands start # # #", put_start},
    {"operands end # #", put_end},
    {"operands question # # # #", put_question},
    {"command # = # flags #", run_command},
    {"result none", see_no_result},
    {"result number #", see_result_number},
    {"result totals # # #", see_result_totals},
    {"result time @ #", see_result_time},
    {"tree starts", take_starts},
    {"tree ends", take_ends},
    {"tree time", take_time},
    {"used # #", see_used},
    {"level # = #", see_level},
    {"rows # = #", see_rows},
    {"row # # = # # child #", see_row},
    {"value # # = @ @", see_value},
    {"root # = # #", see_root},
    {"pass # = # # # #", see_pass},
    {"write used # #", write_used},
    {"write page # level # rows # range # #", write_page},
    {"write row # # keys # # child # value #", write_row},
    {"write life # # from # to #", write_life},
    {"write full # level # range # # first # child #", write_full},
    {"write pairs #", write_pairs},
    {"write last #", write_last},
    {"write started #", write_started},
    {"write open #", write_open},
    {"write pass # # # # #", write_pass},
};

static int number_of(const char *word, uint32_t *number)
{
    size_t length = strlen(word);
    unsigned long long value = strtoull(word, NULL, 10);
    *number = (uint32_t)value;
    return length <= 10 && strspn(word, "0123456789") == length && value <= 4294967295u;
}

/* A number of up to 64 bits. One with a minus before it stands for what it is modulo 2^64. */
static int wide_number_of(const char *word, uint32_t *halves)
{
    const char *digits = word[0] == '-' ? word + 1 : word;
    size_t length = strlen(digits);
    uint64_t value = strtoull(digits, NULL, 10);
    if (digits != word)
        value = 0 - value;
    halves[0] = (uint32_t)(value & 4294967295u);
    halves[1] = (uint32_t)(value >> 32);
    return length > 0 && length <= 19 && strspn(digits, "0123456789") == length;
}

/* Whether the words of a line are those of a form, with its numbers. */
static int matches(const char *form, char **words, size_t count, uint32_t *numbers)
{
    size_t at = 0, length;
    for (; *form != '\0'; at++, form += length, form += *form == ' ') {
        length = strcspn(form, " ");
        if (at == count)
            return 0;
        if (*form == '#') {
            if (!number_of(words[at], numbers))
                return 0;
            numbers++;
        } else if (*form == '@') {
            if (!wide_number_of(words[at], numbers))
                return 0;
            numbers += 2;
        } else if (strlen(words[at]) != length || strncmp(words[at], form, length) != 0) {
            return 0;
        }
    }
    return at == count;
}

static void obey(char **words, size_t count)
{
    uint32_t numbers[2 * MOST_WORDS];
    size_t at;
    turn = 0;
    if (!is_lent && strcmp(words[0], "memory") != 0)
        fault("no memory is lent yet");
    for (at = 0; at < sizeof call_forms / sizeof *call_forms; at++)
        if (matches(call_forms[at].words, words, count, numbers)) {
            call_forms[at].obey(call_forms[at].call, numbers);
            return;
        }
    for (at = 0; at < sizeof other_forms / sizeof *other_forms; at++)
        if (matches(other_forms[at].words, words, count, numbers)) {
            other_forms[at].obey(numbers);
            return;
        }
    fault("no such step");
}

/* A trial that ends gives its memory back, and must have compared something. */
static void end_trial(void)
{
    if (is_begun && compared == compared_before)
        fault("the trial before this line compares nothing");
    if (queued > 0)
        fault("the trial before this line leaves events in the queue");
    if (is_lent) {
        give_back_store(&store);
        give_back(block, NIMBLESHALE_BLOCK_BYTES);
    }
    is_begun = is_lent = 0;
}

static void take_line(void)
{
    char copy[sizeof text], *words[MOST_WORDS], *word;
    size_t count = 0;
    memcpy(copy, text, sizeof text);
    word = strtok(copy, " \t");
    if (word == NULL || word[0] == '#')
        return;
    if (strcmp(word, "trial") == 0) {
        if (strtok(NULL, " \t") == NULL)
            fault("a trial without a title");
        end_trial();
        trials++;
        is_begun = 1;
        tree = OF_STARTS;
        compared_before = compared;
        return;
    }
    for (; word != NULL; word = strtok(NULL, " \t")) {
        if (count == MOST_WORDS)
            fault("too many words");
        words[count++] = word;
    }
    obey(words, count);
}

static void run_file(const char *name)
{
    FILE *file = fopen(name, "r");
    if (file == NULL) {
        perror(name);
        exit(2);
    }
    file_name = name;
    for (line_number = 1; fgets(text, sizeof text, file) != NULL; line_number++) {
        size_t length = strcspn(text, "\r\n");
        if (text[length] == '\0' && !feof(file))
            fault("too long a line");
        text[length] = '\0';
        take_line();
    }
    strcpy(text, "end of the file");
    end_trial();
    fclose(file);
}

int main(int count, char **names)
{
    int at;
    /* What was found shall be seen even if a call crashes. */
    setvbuf(stdout, NULL, _IOLBF, 0);
    for (at = 1; at < count; at++)
        run_file(names[at]);
    printf("trials: %lu trials, %lu calls: %lu compared, %lu differed\n", trials, calls, compared, differed);
    return trials == 0 || compared == 0 || differed != 0;
}
