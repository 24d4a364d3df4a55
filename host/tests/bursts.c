/* Bursts: when one is refused, and what its events get. Every case of a start and of an end (tests/cases.h) comes as an event of a burst, with other
 * events behind it, and single calls on a second store say what each must get and leave; before that, on the same store, a burst of it that must be
 * refused with 31 and leave everything as it was. Then lengths around every limit, on heads that fit and heads that don't; and every kind.
 *
 * What is lent ends right before memory that may not be touched. Result words hold 900 + place before a call. */
#define _DEFAULT_SOURCE
#include "cases.h"

#define MOST_EVENTS 600
#define BEHIND 3

static unsigned long compared, differed, bursts, refused, tried_events;

/* The conditions of 31, each of which may hold or not. */
enum { LONGER = 1, INSIDE = 2, SHORT = 4, SETS = 8 };

/* A burst: its bytes, as they were handed over, and its result words. */
struct burst {
    uint8_t bytes[NIMBLESHALE_EVENT_BYTES * MOST_EVENTS];
    size_t length;
    uint64_t results[NIMBLESHALE_RESULT_WORDS * MOST_EVENTS];
    size_t words;
};

static void judge(int same, const char *what, enum call call, unsigned conditions, enum way way)
{
    compared++;
    if (same)
        return;
    differed++;
    if (differed <= 10)
        printf("differs: %s: event %d, conditions %x, way %d\n", what, (int)call, conditions, (int)way);
}

static void fill_results(struct burst *burst)
{
    for (size_t at = 0; at < burst->words; at++)
        burst->results[at] = 900 + at;
}

/* How many of the result words hold what they held before the call, from a place on. */
static size_t unaltered(const struct burst *burst, size_t from)
{
    size_t count = 0;
    for (size_t at = from; at < burst->words; at++)
        count += burst->results[at] == 900 + at;
    return count;
}

/* Hands a burst over in slices of just its lengths. 255 where its bytes are altered. */
static uint8_t make_burst(struct tried *t, struct burst *burst)
{
    struct nimbleshale_store *s = &t->store;
    uint8_t *events = lend(burst->length), refusal;
    uint64_t *results = lend(8 * burst->words);
    fill_results(burst);
    memcpy(events, burst->bytes, burst->length);
    memcpy(results, burst->results, 8 * burst->words);
    refusal = nimbleshale_burst(LENT, events, burst->length, results, burst->words);
    if (memcmp(events, burst->bytes, burst->length) != 0)
        refusal = 255;
    memcpy(burst->results, results, 8 * burst->words);
    give_back(events, burst->length);
    give_back(results, 8 * burst->words);
    bursts++;
    return refusal;
}

/* A burst that must be refused, and must write nothing. */
static int is_refused(struct tried *tried, struct burst *burst)
{
    const uint64_t before = digest_tried(tried);
    refused++;
    return make_burst(tried, burst) == NIMBLESHALE_REFUSED_BURST && digest_tried(tried) == before && unaltered(burst, 0) == burst->words;
}

static uint32_t number_in(const uint8_t *bytes, int count)
{
    return count == 0 ? 0 : bytes[0] + 256u * number_in(bytes + 1, count - 1);
}

/* An event by a single call; its two result words. */
static void enter_alone(struct tried *t, const uint8_t *event, uint64_t *result)
{
    struct nimbleshale_store *s = &t->store;
    uint32_t number = 0;
    uint8_t refusal = NIMBLESHALE_REFUSED_COMMAND;
    if (event[0] == 1)
        refusal = nimbleshale_start(LENT, number_in(event + 1, 4), number_in(event + 5, 2), number_in(event + 7, 2), &number);
    if (event[0] == 2)
        refusal = nimbleshale_end(LENT, number_in(event + 1, 4), number_in(event + 5, 4));
    result[0] = refusal;
    result[1] = number;
    tried_events++;
}

/* A burst that must be accepted, on one store, and its events by single calls on another like it. */
static int is_entered(struct tried *tried, struct tried *alone, struct burst *burst)
{
    const size_t events = burst->length / NIMBLESHALE_EVENT_BYTES;
    int same = make_burst(tried, burst) == 0;
    for (size_t at = 0; at < events; at++) {
        uint64_t result[2];
        enter_alone(alone, burst->bytes + NIMBLESHALE_EVENT_BYTES * at, result);
        same = same && burst->results[2 * at] == result[0] && burst->results[2 * at + 1] == result[1];
    }
    return same && unaltered(burst, 2 * events) == burst->words - 2 * events && digest_tried(tried) == digest_tried(alone);
}

/* The event of a case. A key that does not fit in two bytes becomes one that is refused as well. */
static void put_event(uint8_t *event, enum call call, const struct arguments *a)
{
    if (call == START)
        nimbleshale_event_start(event, a->tick, a->key, a->weight);
    else
        nimbleshale_event_end(event, a->tick, a->number);
}

/* As many events of one kind as are needed, and lengths in bytes and words of which just the conditions of a set hold. Which lengths these are is told
 * by a number. */
static void put_refused(struct burst *burst, enum call call, const struct arguments *a, unsigned set, unsigned which)
{
    static const size_t fitting[3] = {1, 3, 256}, longer[3] = {257, 258, 512};
    const size_t events = set & LONGER ? longer[which % 3] : fitting[which % 3];
    for (size_t at = 0; at < events; at++)
        put_event(burst->bytes + NIMBLESHALE_EVENT_BYTES * at, call, a);
    burst->length = NIMBLESHALE_EVENT_BYTES * events;
    if (set & INSIDE)
        burst->length -= 1 + which % 8;
    burst->words = 2 * events + which % 2;
    if (set & SHORT)
        burst->words = which % 5 == 0 ? 0 : 2 * (burst->length / NIMBLESHALE_EVENT_BYTES) - (burst->length >= NIMBLESHALE_EVENT_BYTES);
}

/* A case: first as a burst that is refused, then as the first and the third event of one that is not. Between them comes one of unknown kind, and
 * last the other kind of event with good arguments. */
static void try_case(enum call call, unsigned conditions, enum way way)
{
    static struct burst burst;
    const struct arguments a = arguments_of(call, conditions, way), good = {102, 450, 1, 3};
    const unsigned mixed = conditions + (unsigned)way;
    struct tried tried, alone;
    begin(&tried, call, conditions, way);
    begin(&alone, call, conditions, way);
    put_refused(&burst, call, &a, 1 + mixed % (SETS - 1), mixed / (SETS - 1));
    judge(is_refused(&tried, &burst), "a burst that is refused", call, conditions, way);
    put_event(burst.bytes, call, &a);
    put_event(burst.bytes + 9, call, &a);
    burst.bytes[9] = (uint8_t)(mixed % 254 == 0 ? 0 : 2 + mixed % 254);
    put_event(burst.bytes + 18, call, &a);
    put_event(burst.bytes + 27, call == START ? END : START, &good);
    burst.length = 36;
    burst.words = 8 + mixed % (BEHIND + 1);
    judge(is_entered(&tried, &alone, &burst), "a burst of four", call, conditions, way);
    judge(burst.results[0] == first_refusal(call, conditions) && burst.results[2] == 6, "what its events get", call, conditions, way);
    end_case(&tried);
    end_case(&alone);
}

/* Bytes and result words around every limit, and whether such a burst is refused. */
static const struct {
    size_t bytes, words;
    int is_refused;
} lengths[] = {
    {0, 0, 0}, {0, 1, 0}, {0, 700, 0}, {1, 0, 1}, {1, 700, 1}, {8, 2, 1}, {9, 0, 1}, {9, 1, 1}, {9, 2, 0}, {9, 3, 0}, {10, 2, 1}, {10, 700, 1},
    {17, 4, 1}, {18, 2, 1}, {18, 3, 1}, {18, 4, 0}, {26, 4, 1}, {26, 6, 1}, {27, 5, 1}, {27, 6, 0}, {28, 6, 1}, {28, 8, 1}, {2295, 510, 0},
    {2296, 700, 1}, {2303, 512, 1}, {2304, 0, 1}, {2304, 256, 1}, {2304, 511, 1}, {2304, 512, 0}, {2304, 513, 0}, {2304, 1200, 0}, {2305, 512, 1},
    {2305, 1200, 1}, {2312, 514, 1}, {2313, 512, 1}, {2313, 513, 1}, {2313, 514, 1}, {2313, 1200, 1}, {4608, 1023, 1}, {4608, 1024, 1},
};

/* On a head that fits, which way WAYS is, or that doesn't: the head is no ground for or against 31. */
static void try_lengths(enum way way)
{
    static struct burst burst;
    const struct arguments good = {100, 450, 1, 0};
    /* 20 is the fourth of a start's refusals. */
    const unsigned unfit = way == WAYS ? 0 : 1u << 3;
    for (size_t at = 0; at < sizeof lengths / sizeof *lengths; at++) {
        struct tried tried, alone;
        begin(&tried, START, unfit, way);
        begin(&alone, START, unfit, way);
        for (size_t event = 0; event < MOST_EVENTS; event++)
            put_event(burst.bytes + NIMBLESHALE_EVENT_BYTES * event, START, &good);
        burst.length = lengths[at].bytes;
        burst.words = lengths[at].words;
        judge(lengths[at].is_refused ? is_refused(&tried, &burst) : is_entered(&tried, &alone, &burst), "lengths", START, (unsigned)at, way);
        judge(lengths[at].is_refused || burst.length == 0 || burst.results[0] == (way == WAYS ? 0 : 20), "the first event", START, (unsigned)at, way);
        end_case(&tried);
        end_case(&alone);
    }
}

/* All 256 first bytes in one burst, each with the same operands: 1 is a start, 2 the end of no pass, and any other gets 6. */
static void try_kinds(void)
{
    static struct burst burst;
    const struct arguments good = {100, 450, 1, 0};
    struct tried tried, alone;
    begin(&tried, START, 0, WAYS);
    begin(&alone, START, 0, WAYS);
    for (size_t kind = 0; kind < 256; kind++) {
        put_event(burst.bytes + NIMBLESHALE_EVENT_BYTES * kind, START, &good);
        burst.bytes[NIMBLESHALE_EVENT_BYTES * kind] = (uint8_t)kind;
    }
    burst.length = NIMBLESHALE_EVENT_BYTES * 256;
    burst.words = 512 + BEHIND;
    judge(is_entered(&tried, &alone, &burst), "every kind", START, 0, WAYS);
    for (size_t kind = 0; kind < 256; kind++) {
        const uint64_t *result = burst.results + 2 * kind;
        judge(kind == 1 ? result[0] == 0 && result[1] == 70 : result[0] == (kind == 2 ? 22 : 6) && result[1] == 0, "kind", START, (unsigned)kind, WAYS);
    }
    end_case(&tried);
    end_case(&alone);
}

int main(void)
{
    static const enum call calls[2] = {START, END};
    for (int call = 0; call < 2; call++)
        for (unsigned conditions = 0; conditions < sets_of(calls[call]); conditions++)
            for (int way = 0; way < WAYS; way++)
                try_case(calls[call], conditions, (enum way)way);
    for (int way = 0; way <= WAYS; way++)
        try_lengths((enum way)way);
    try_kinds();
    printf("bursts: %lu bursts, %lu of them refused, %lu events tried: %lu compared, %lu differed\n", bursts, refused, tried_events, compared, differed);
    return differed != 0;
}
