/* Every constant of the header and every text of a refusal, stated once more; the words of a table, the room for answers, the pass in a place, what
 * becomes of wide numbers, and the bytes of events. No archive is linked.
 *
 * constants NAME..: the names of all constants that the header has, without NIMBLESHALE_, each of which must be stated here */
#include <nimbleshale.h>
#include <stdio.h>
#include <string.h>

static unsigned long compared, differed;

static void expect(const char *what, uint64_t found, uint64_t wanted)
{
    compared++;
    if (found == wanted)
        return;
    differed++;
    printf("differs: %s: found %llu, wanted %llu\n", what, (unsigned long long)found, (unsigned long long)wanted);
}

#define STATED(name, number) {#name, NIMBLESHALE_##name, number}

static const struct {
    const char *name;
    uint64_t found, wanted;
} constants[] = {
    STATED(KEYS, 30000),
    STATED(HIGHEST_KEY, 29999),
    STATED(HIGHEST_WEIGHT, 10000),
    STATED(TICKS, 4294967295u),
    STATED(HIGHEST_TICK, 4294967294u),
    STATED(OPEN_PASSES, 64),
    STATED(PASSES, 1000000),
    STATED(PAGES, 1000000),
    STATED(PAGE_WORDS, 260),
    STATED(LOOKUP_PAGES, 4),
    STATED(QUESTION_PAGES, 16),
    STATED(ENTRY_PAGES, 7),
    STATED(LONGEST_COMMAND, 13),
    STATED(LONGEST_ANSWER, 18),
    STATED(BURST_EVENTS, 256),
    STATED(EVENT_BYTES, 9),
    STATED(RESULT_WORDS, 2),
    STATED(BLOCK_BYTES, 40),
    STATED(HEAD_LAST, 0),
    STATED(HEAD_STARTED, 1),
    STATED(HEAD_OPEN, 2),
    STATED(HEAD_START_PAGES, 3),
    STATED(HEAD_START_ROOTS, 4),
    STATED(HEAD_END_PAGES, 5),
    STATED(HEAD_END_ROOTS, 6),
    STATED(HEAD_TIME_PAGES, 7),
    STATED(HEAD_TIME_ROOTS, 8),
    STATED(HEAD_PASSES, 9),
    STATED(HEAD_NUMBERS, 265),
    STATED(COMMAND_START, 1),
    STATED(COMMAND_END, 2),
    STATED(COMMAND_QUESTION, 3),
    STATED(COMMAND_BAT_TIME, 4),
    STATED(BLOCK_COMMAND, 0),
    STATED(BLOCK_OPERANDS, 1),
    STATED(BLOCK_OPERAND_BYTES, 12),
    STATED(BLOCK_STATUS, 13),
    STATED(BLOCK_FLAGS, 14),
    STATED(BLOCK_MASK, 15),
    STATED(BLOCK_RESULT, 16),
    STATED(BLOCK_RESULT_BYTES, 17),
    STATED(FLAG_DONE, 1),
    STATED(FLAG_REFUSED, 2),
    STATED(FLAG_ALL_OPEN, 4),
    STATED(ACCEPTED, 0),
    STATED(REFUSED_KEY, 1),
    STATED(REFUSED_BAND, 2),
    STATED(REFUSED_WEIGHT, 3),
    STATED(REFUSED_TICK, 4),
    STATED(REFUSED_INTERVAL, 5),
    STATED(REFUSED_COMMAND, 6),
    STATED(REFUSED_CUT_SHORT, 7),
    STATED(REFUSED_MEMORY, 8),
    STATED(REFUSED_BURST, 31),
    STATED(REFUSED_HEAD, 20),
    STATED(REFUSED_EARLIER, 21),
    STATED(REFUSED_NOT_OPEN, 22),
    STATED(REFUSED_ALL_OPEN, 24),
    STATED(REFUSED_ALL_STARTED, 25),
    STATED(REFUSED_SPOILED, 26),
    STATED(REFUSED_NO_PAGES, 27),
    STATED(REFUSED_NO_ROOT, 28),
};

#define CONSTANTS (sizeof constants / sizeof *constants)

static void see_constants(void)
{
    for (size_t at = 0; at < CONSTANTS; at++)
        expect(constants[at].name, constants[at].found, constants[at].wanted);
}

/* The number of a refusal that is gone. "its number isn't used again" */
#define RETIRED 23

/* No refusal has a retired number, under whatever name, and the number has no text. */
static void see_retired(void)
{
    expect("a text of a retired number", strcmp(nimbleshale_refusal_text(RETIRED), "unknown refusal") != 0, 0);
    for (size_t at = 0; at < CONSTANTS; at++)
        if (strncmp(constants[at].name, "REFUSED_", 8) == 0)
            expect("a refusal of a retired number", constants[at].found == RETIRED, 0);
}

/* Every name that the header has is stated, and nothing else is. */
static void see_names(int count, char **names)
{
    for (int name = 0; name < count; name++) {
        size_t at = 0;
        while (at < CONSTANTS && strcmp(constants[at].name, names[name]) != 0)
            at++;
        expect(names[name], at < CONSTANTS, 1);
    }
    expect("number of constants", (uint64_t)count, CONSTANTS);
}

/* By the number of the refusal; one that has no text here is unknown. */
static const char *const texts[256] = {
    [0] = "accepted",
    [1] = "key or k1 above 29,999, or k2 above 30,000",
    [2] = "k1 not below k2",
    [3] = "weight 0 or above 10,000",
    [4] = "tick 4,294,967,295",
    [5] = "t1 not below t2",
    [6] = "unknown command byte",
    [7] = "command cut short",
    [8] = "page table under 260 words or empty root list",
    [20] = "head that doesn't fit",
    [21] = "tick before the last tick",
    [22] = "no open pass of that number",
    [24] = "64 passes open",
    [25] = "1,000,000 passes started",
    [26] = "spoiled page met",
    [27] = "too few pages left",
    [28] = "root list full",
    [31] = "burst over 256 events, cut short, or with too few result words",
};

static void see_texts(void)
{
    for (int refusal = 0; refusal < 256; refusal++) {
        const char *found = nimbleshale_refusal_text((uint8_t)refusal), *wanted = texts[refusal];
        compared++;
        if (strcmp(found, wanted == NULL ? "unknown refusal" : wanted) == 0)
            continue;
        differed++;
        printf("differs: refusal %d: %s\n", refusal, found);
    }
}

static void see_sizes(void)
{
    expect("words of no page", NIMBLESHALE_TABLE_WORDS(0), 0);
    expect("words of a page", NIMBLESHALE_TABLE_WORDS(1), 260);
    expect("words of 2 + 1 pages", NIMBLESHALE_TABLE_WORDS(2 + 1), 780);
    expect("words of 1,000,000 pages", NIMBLESHALE_TABLE_WORDS(1000000), 260000000);
    expect("words of a table are a size_t", sizeof NIMBLESHALE_TABLE_WORDS(1), sizeof(size_t));
    /* Over 2^32 words, where a size_t has room for them. */
    if (sizeof(size_t) > 4)
        expect("words of 20,000,000 pages", NIMBLESHALE_TABLE_WORDS(20000000), 5200000000u);
    expect("room for no byte", NIMBLESHALE_ROOM(0), 18);
    expect("room for a byte", NIMBLESHALE_ROOM(1), 20);
    expect("room for 2 + 1 bytes", NIMBLESHALE_ROOM(2 + 1), 24);
    expect("room for 4,096 bytes, twice", 2 * NIMBLESHALE_ROOM(4096), 16420);
    expect("room is a size_t", sizeof NIMBLESHALE_ROOM(1), sizeof(size_t));
    if (sizeof(size_t) > 4)
        expect("room for 4,000,000,000 bytes", NIMBLESHALE_ROOM(4000000000u), 8000000018u);
}

static void see_passes(void)
{
    static struct nimbleshale_store store;
    for (uint32_t at = 0; at < NIMBLESHALE_HEAD_NUMBERS; at++)
        store.head[at] = 991 + at;
    for (uint32_t place = 0; place < NIMBLESHALE_OPEN_PASSES; place++) {
        const struct nimbleshale_pass pass = nimbleshale_store_pass(&store, place);
        expect("number", pass.number, 1000 + 4 * place);
        expect("key", pass.key, 1001 + 4 * place);
        expect("weight", pass.weight, 1002 + 4 * place);
        expect("start", pass.start, 1003 + 4 * place);
    }
}

static void see_narrowed(void)
{
    const uint64_t beyond = 4294967296u;
    expect("0 narrowed", nimbleshale_narrowed(0), 0);
    expect("5 narrowed", nimbleshale_narrowed(5), 5);
    expect("2^31 + 5 narrowed", nimbleshale_narrowed(2147483653u), 2147483653u);
    expect("2^32 - 2 narrowed", nimbleshale_narrowed(beyond - 2), 4294967294u);
    expect("2^32 - 1 narrowed", nimbleshale_narrowed(beyond - 1), 4294967295u);
    expect("2^32 narrowed", nimbleshale_narrowed(beyond), 4294967295u);
    expect("2^32 + 5 narrowed", nimbleshale_narrowed(beyond + 5), 4294967295u);
    expect("2^64 - 1 narrowed", nimbleshale_narrowed(18446744073709551615u), 4294967295u);
}

/* An event has its nine bytes and writes no other. */
static void see_event(const char *what, const uint8_t *found, const char *wanted)
{
    for (size_t at = 0; at < 11; at++)
        expect(what, found[at], (uint8_t)wanted[at]);
}

/* A key or a weight of more than two bytes becomes 65,535, which is refused as either. */
static void see_events(void)
{
    static const struct {
        uint32_t tick, key, weight;
        const char *bytes;
    } starts[] = {
        {0, 0, 0, "\x5a\x01\0\0\0\0\0\0\0\0\x5a"},
        {0x04030201, 0x0605, 0x0807, "\x5a\x01\x01\x02\x03\x04\x05\x06\x07\x08\x5a"},
        {4294967295u, 65535, 65535, "\x5a\x01\xff\xff\xff\xff\xff\xff\xff\xff\x5a"},
        {10, 65536 + 4500, 100, "\x5a\x01\x0a\0\0\0\xff\xff\x64\0\x5a"},
        {10, 4500, 65536 + 100, "\x5a\x01\x0a\0\0\0\x94\x11\xff\xff\x5a"},
        {10, 4294967295u, 65536, "\x5a\x01\x0a\0\0\0\xff\xff\xff\xff\x5a"},
    };
    uint8_t found[11];
    for (size_t at = 0; at < sizeof starts / sizeof *starts; at++) {
        memset(found, 0x5a, sizeof found);
        nimbleshale_event_start(found + 1, starts[at].tick, starts[at].key, starts[at].weight);
        see_event("event of a start", found, starts[at].bytes);
    }
    memset(found, 0x5a, sizeof found);
    nimbleshale_event_end(found + 1, 0x04030201, 0x88776655);
    see_event("event of an end", found, "\x5a\x02\x01\x02\x03\x04\x55\x66\x77\x88\x5a");
}

int main(int count, char **names)
{
    see_constants();
    see_retired();
    see_names(count - 1, names + 1);
    see_texts();
    see_sizes();
    see_passes();
    see_narrowed();
    see_events();
    printf("constants: %lu compared, %lu differed\n", compared, differed);
    return differed != 0;
}
