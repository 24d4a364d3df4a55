/* The vectors of host/vectors: traces to the word, command streams byte for byte.
 * vectors TRACES STREAMS, the traces unpacked */
#define _DEFAULT_SOURCE
#include "stream.h"

#define UNTOUCHED 0xa5a5a5a5u

static unsigned long compared, differed;

static void judge(int same, const char *what)
{
    compared++;
    if (!same) {
        differed++;
        if (differed <= 10)
            printf("differs: %.200s\n", what);
    }
}

/* The numbers of a line from `text` on, in a base. Returns how many; at most `limit` are kept. */
static size_t numbers_of(const char *text, int base, uint64_t *numbers, size_t limit)
{
    size_t count = 0;
    char *end;
    for (;;) {
        uint64_t number = strtoull(text, &end, base);
        if (end == text)
            return count;
        if (count < limit)
            numbers[count] = number;
        count++;
        text = end;
    }
}

/* The numbers of an S line in their places. It has the open passes before what the trees use, and the head behind it. */
static void load_head(struct nimbleshale_store *store, const uint64_t *numbers)
{
    const size_t uses = NIMBLESHALE_HEAD_PASSES - NIMBLESHALE_HEAD_START_PAGES, passes = NIMBLESHALE_HEAD_NUMBERS - NIMBLESHALE_HEAD_PASSES;
    size_t at;
    for (at = 0; at < NIMBLESHALE_HEAD_START_PAGES; at++)
        store->head[at] = (uint32_t)numbers[at];
    for (at = 0; at < passes; at++)
        store->head[NIMBLESHALE_HEAD_PASSES + at] = (uint32_t)numbers[NIMBLESHALE_HEAD_START_PAGES + at];
    for (at = 0; at < uses; at++)
        store->head[NIMBLESHALE_HEAD_START_PAGES + at] = (uint32_t)numbers[NIMBLESHALE_HEAD_START_PAGES + passes + at];
}

/* A slice with the numbers of a line. */
static uint64_t *load_slice(const char *text, size_t *length)
{
    uint64_t *slice;
    *length = numbers_of(text, 16, NULL, 0);
    slice = lend(8 * *length);
    numbers_of(text, 16, slice, *length);
    return slice;
}

/* The slice of a P or R line, of which six follow an S line in the order of the store. Returns 0 where there are more. */
static int load_next(struct nimbleshale_store *store, size_t place, const char *text)
{
    switch (place) {
    case 0: store->start_table = load_slice(text, &store->start_table_length); return 1;
    case 1: store->start_roots = load_slice(text, &store->start_roots_length); return 1;
    case 2: store->end_table = load_slice(text, &store->end_table_length); return 1;
    case 3: store->end_roots = load_slice(text, &store->end_roots_length); return 1;
    case 4: store->time_table = load_slice(text, &store->time_table_length); return 1;
    case 5: store->time_roots = load_slice(text, &store->time_roots_length); return 1;
    default: return 0;
    }
}

/* Three numbers that a trace has after the refusal. */
static void put_answers(uint64_t *answers, uint64_t first, uint64_t second, uint64_t third)
{
    answers[0] = first;
    answers[1] = second;
    answers[2] = third;
}

/* A lookup of a tree, which is its number. */
static uint8_t look_up(struct nimbleshale_store *store, uint32_t tree, uint32_t t, uint32_t k, uint64_t *answers)
{
    struct nimbleshale_totals totals = {UNTOUCHED, UNTOUCHED, UNTOUCHED};
    struct nimbleshale_line line = {UNTOUCHED, UNTOUCHED, UNTOUCHED};
    uint8_t refusal;
    if (tree == 2) {
        refusal = nimbleshale_store_lookup_time(store, t, k, &line);
        put_answers(answers, line.factor, line.constant, line.pages);
        return refusal;
    }
    refusal = tree == 0 ? nimbleshale_store_lookup_starts(store, t, k, &totals) : nimbleshale_store_lookup_ends(store, t, k, &totals);
    put_answers(answers, totals.count, totals.sum, totals.pages);
    return refusal;
}

/* Makes a call of a trace. The answers that it does not give are 0; all that a refused one could give stay untouched. */
static uint8_t call_store(struct nimbleshale_store *store, char kind, const uint64_t *given, uint64_t *answers)
{
    struct nimbleshale_totals totals = {UNTOUCHED, UNTOUCHED, UNTOUCHED};
    struct nimbleshale_time time = {UNTOUCHED, UNTOUCHED};
    uint32_t number = UNTOUCHED, a = (uint32_t)given[0], b = (uint32_t)given[1], c = (uint32_t)given[2], d = (uint32_t)given[3];
    uint8_t refusal = 255;
    put_answers(answers, 0, 0, 0);
    switch (kind) {
    case 'o': return nimbleshale_store_open(store);
    case 'e': return nimbleshale_store_end(store, a, b);
    case 's':
        refusal = nimbleshale_store_start(store, a, b, c, &number);
        answers[0] = number;
        break;
    case 'l': refusal = look_up(store, a, b, c, answers); break;
    case 'q':
        refusal = nimbleshale_store_question(store, a, b, c, d, &totals);
        put_answers(answers, totals.count, totals.sum, totals.pages);
        break;
    case 't':
        refusal = nimbleshale_store_bat_time(store, a, b, c, d, &time);
        put_answers(answers, time.total, time.pages, 0);
        break;
    }
    return refusal;
}

/* Whether a refused call wrote none of the numbers that it could have given. */
static int none_given(char kind, const uint64_t *answers)
{
    const size_t given = kind == 's' ? 1 : kind == 't' ? 2 : kind == 'o' || kind == 'e' ? 0 : 3;
    size_t at = 0;
    while (at < given && answers[at] == UNTOUCHED)
        at++;
    return at == given;
}

/* A call's line: the call, what it must answer and what it must leave. */
static void try_call(struct nimbleshale_store *store, const char *line)
{
    uint64_t given[4] = {0, 0, 0, 0}, expected[4] = {0, 0, 0, 0}, answers[3], digest;
    const char *answer = strstr(line, " = "), *after = strstr(line, " # ");
    uint8_t refusal;
    if (answer == NULL || after == NULL) {
        judge(0, line);
        return;
    }
    numbers_of(line + 1, 10, given, 4);
    numbers_of(answer + 3, 10, expected, 4);
    numbers_of(after + 3, 10, &digest, 1);
    refusal = call_store(store, line[0], given, answers);
    judge(refusal == expected[0] && digest_store(store) == digest &&
              (refusal != 0 ? none_given(line[0], answers)
                            : answers[0] == expected[1] && answers[1] == expected[2] && answers[2] == expected[3]),
          line);
}

/* A burst and its result words, which hold 900 + place before the call. All of them are compared with those of the line. */
static int same_burst(struct nimbleshale_store *store, const char *hex, size_t words, const uint64_t *expected)
{
    const size_t length = strspn(hex, "0123456789abcdef") / 2;
    uint8_t *bytes = lend(length);
    uint64_t *results = lend(8 * words);
    int same;
    size_t at;
    for (at = 0; at < words; at++)
        results[at] = 900 + at;
    bytes_of(hex, bytes);
    same = nimbleshale_store_burst(store, bytes, length, results, words) == expected[0];
    for (at = 0; at < words; at++)
        same = same && results[at] == expected[1 + at];
    give_back(bytes, length);
    give_back(results, 8 * words);
    return same;
}

/* A burst's line: its bytes, how many words are lent, the refusal and all the words, and the digest. */
static void try_burst(struct nimbleshale_store *store, const char *line)
{
    const char *answer = strstr(line, " = "), *after = strstr(line, " # ");
    char *hex = malloc(strlen(line) + 1);
    unsigned long words;
    uint64_t *expected, digest;
    if (hex == NULL || answer == NULL || after == NULL || sscanf(line, "b %s %lu", hex, &words) != 2)
        exit(2);
    expected = malloc(8 * (words + 1));
    if (expected == NULL)
        exit(2);
    numbers_of(after + 3, 10, &digest, 1);
    judge(numbers_of(answer + 3, 10, expected, words + 1) == words + 1 && same_burst(store, hex, words, expected) &&
              digest_store(store) == digest,
          line);
    free(hex);
    free(expected);
}

/* A register block that has just been reset. Before that it held anything. */
static uint8_t *lend_block(void)
{
    uint8_t *block = lend(NIMBLESHALE_BLOCK_BYTES);
    memset(block, 0xa5, NIMBLESHALE_BLOCK_BYTES);
    nimbleshale_block_reset(block);
    return block;
}

/* An access to the register block, and what it gives: 0, or the byte that is read. 256 where there is no such access. */
static uint64_t access_block(struct nimbleshale_store *store, uint8_t *block, const char *line)
{
    unsigned long offset, value;
    if (sscanf(line, "k w %lu %lu", &offset, &value) == 2 && value < 256) {
        nimbleshale_store_block_write(store, block, offset, (uint8_t)value);
        return 0;
    }
    if (sscanf(line, "k r %lu", &offset) == 1)
        return nimbleshale_block_read(block, offset);
    if (strncmp(line, "k z ", 4) != 0)
        return 256;
    nimbleshale_block_reset(block);
    return 0;
}

/* An access's line: what it gives, the interrupt line after it, and the digest of the store, of which the block is no part. */
static void try_access(struct nimbleshale_store *store, uint8_t *block, const char *line)
{
    const char *answer = strstr(line, " = "), *after = strstr(line, " # ");
    uint64_t expected[2], digest, found;
    if (answer == NULL || after == NULL || numbers_of(answer + 3, 10, expected, 2) != 2 || numbers_of(after + 3, 10, &digest, 1) != 1) {
        judge(0, line);
        return;
    }
    found = access_block(store, block, line);
    judge(found == expected[0] && nimbleshale_block_line(block) == expected[1] && digest_store(store) == digest, line);
}

static void try_traces(FILE *file)
{
    struct nimbleshale_store store;
    uint8_t *block = NULL;
    uint64_t head[NIMBLESHALE_HEAD_NUMBERS];
    char *line = NULL;
    size_t room = 0, stores = 0, slices = 0, bursts = 0, accesses = 0, times = 0;
    while (getline(&line, &room, file) > 0) {
        switch (line[0]) {
        case 'S':
            if (stores++ > 0) {
                give_back_store(&store);
                give_back(block, NIMBLESHALE_BLOCK_BYTES);
            }
            slices = 0;
            block = lend_block();
            judge(numbers_of(line + 1, 16, head, NIMBLESHALE_HEAD_NUMBERS) == NIMBLESHALE_HEAD_NUMBERS, line);
            load_head(&store, head);
            break;
        case 'P':
        case 'R':
            judge(load_next(&store, slices++, line + 1), line);
            break;
        case 'o': case 's': case 'e': case 'l': case 'q': case 't':
            try_call(&store, line);
            times += line[0] == 't';
            break;
        case 'b':
            try_burst(&store, line);
            bursts++;
            break;
        case 'k':
            try_access(&store, block, line);
            accesses++;
            break;
        default:
            judge(0, line);
        }
    }
    if (stores > 0) {
        give_back_store(&store);
        give_back(block, NIMBLESHALE_BLOCK_BYTES);
    }
    free(line);
    printf("vectors: %lu stores, %lu bat-times, %lu bursts, %lu accesses to register blocks", (unsigned long)stores, (unsigned long)times,
           (unsigned long)bursts, (unsigned long)accesses);
    judge(times > 0 && bursts > 0 && accesses > 0, "traces without bat-times, without bursts or without register blocks");
}

static void try_streams(FILE *file)
{
    char *line = NULL;
    size_t room = 0, streams = 0, commands = 0;
    while (getline(&line, &room, file) > 0) {
        struct vector vector = vector_of(line);
        struct stream stream;
        judge(run_stream(&stream, &vector), vector.name);
        judge(stream.written == vector.wanted_length && memcmp(stream.output, vector.wanted, stream.written) == 0, vector.name);
        commands += stream.commands;
        give_back_stream(&stream);
        free_vector(&vector);
        streams++;
    }
    free(line);
    printf(", %lu streams of %lu commands", (unsigned long)streams, (unsigned long)commands);
}

int main(int count, char **names)
{
    if (count != 3)
        return 2;
    try_traces(opened(names[1]));
    try_streams(opened(names[2]));
    printf(": %lu compared, %lu differed\n", compared, differed);
    return differed != 0 || compared < 2000;
}
