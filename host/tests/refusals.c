/* The refusals of every call: each condition by itself, and all of them together in every combination (tests/cases.h). The first one in the order
 * of document 01 must be given, and a refused call must leave every number and word as it was. */
#define _DEFAULT_SOURCE
#include "cases.h"

static unsigned long compared, differed;

static const char *const names[CALLS] = {"open", "start", "end", "question", "bat_time", "lookup_starts", "lookup_ends", "lookup_time"};

/* What the calls answer: the number of a start, and the two words, or the one of a bat-time, and the pages of a call that reads. */
struct results {
    uint32_t number;
    uint64_t words[2];
    uint32_t pages;
};

static const struct results no_result = {UNTOUCHED, {UNTOUCHED, UNTOUCHED}, UNTOUCHED};

/* The call of a case, with the conditions that are of the arguments. */
static uint8_t make_call(struct tried *t, enum call call, unsigned conditions, enum way way, struct results *r)
{
    struct nimbleshale_store *s = &t->store;
    const struct arguments a = arguments_of(call, conditions, way);
    const struct asked q = asked_of(call, conditions, way);
    switch (call) {
    case OPEN: return nimbleshale_open(LENT);
    case START: return nimbleshale_start(LENT, a.tick, a.key, a.weight, &r->number);
    case END: return nimbleshale_end(LENT, a.tick, a.number);
    case QUESTION: return nimbleshale_question(LENT, q.k1, q.k2, q.t1, q.t2, &r->words[0], &r->words[1], &r->pages);
    case BAT_TIME: return nimbleshale_bat_time(LENT, q.k1, q.k2, q.t1, q.t2, &r->words[0], &r->pages);
    case LOOKUP_STARTS: return nimbleshale_lookup_starts(LENT, a.tick, a.key, &r->words[0], &r->words[1], &r->pages);
    case LOOKUP_ENDS: return nimbleshale_lookup_ends(LENT, a.tick, a.key, &r->words[0], &r->words[1], &r->pages);
    case LOOKUP_TIME: return nimbleshale_lookup_time(LENT, a.tick, a.key, &r->words[0], &r->words[1], &r->pages);
    default: return 255;
    }
}

static void try_case(enum call call, unsigned conditions, enum way way)
{
    struct tried tried;
    struct results results = no_result;
    uint8_t wanted = first_refusal(call, conditions), refusal;
    uint64_t before;
    int same;
    begin(&tried, call, conditions, way);
    before = digest_tried(&tried);
    refusal = make_call(&tried, call, conditions, way, &results);
    same = refusal == wanted;
    if (wanted != 0 || call >= QUESTION)
        same = same && digest_tried(&tried) == before;
    if (wanted != 0 || call < QUESTION)
        same = same && results.words[0] == UNTOUCHED && results.words[1] == UNTOUCHED && results.pages == UNTOUCHED;
    if (wanted != 0 || call != START)
        same = same && results.number == UNTOUCHED;
    compared++;
    if (!same) {
        differed++;
        if (differed <= 10)
            printf("differs: %s, conditions %x, way %d: %d, not %d\n", names[call], conditions, (int)way, refusal, wanted);
    }
    end_case(&tried);
}

/* The table of a tree in a store, and its length. */
static uint64_t **table_of(struct nimbleshale_store *store, enum tree tree)
{
    return tree == STARTS ? &store->start_table : tree == ENDS ? &store->end_table : &store->time_table;
}

static size_t *length_of(struct nimbleshale_store *store, enum tree tree)
{
    return tree == STARTS ? &store->start_table_length : tree == ENDS ? &store->end_table_length : &store->time_table_length;
}

/* Over 1,000,000 pages, in a tree that a start or an end writes. The table is that large but not touched past its first page. */
static void many_pages(enum call call, enum tree tree)
{
    struct tried tried;
    struct tried *t = &tried;
    struct nimbleshale_store *s = &tried.store;
    struct results results = no_result;
    const size_t many = NIMBLESHALE_TABLE_WORDS(1000002);
    uint64_t *table = mmap(NULL, 8 * many, PROT_READ | PROT_WRITE, MAP_PRIVATE | MAP_ANONYMOUS | MAP_NORESERVE, -1, 0), *lent;
    uint32_t *pages_used;
    size_t length;
    uint8_t found[4];
    if (table == MAP_FAILED) {
        printf("no room for a table of 1,000,002 pages: not tried\n");
        return;
    }
    begin(t, call, 0, WAYS);
    lent = *table_of(s, tree);
    length = *length_of(s, tree);
    write_leaf(table, 0);
    *table_of(s, tree) = table;
    *length_of(s, tree) = many;
    pages_used = t->head + NIMBLESHALE_HEAD_START_PAGES + 2 * tree;
    *pages_used = 1000001;
    found[0] = make_call(t, QUESTION, 0, WAYS, &results);
    *pages_used = 1000000;
    found[1] = make_call(t, QUESTION, 0, WAYS, &results);
    found[2] = make_call(t, call, 0, WAYS, &results);
    *pages_used = 999997;
    found[3] = make_call(t, call, 0, WAYS, &results);
    compared += 4;
    if (found[0] != 20 || found[1] != 0 || found[2] != 27 || found[3] != 0 || *pages_used != 1000000) {
        differed++;
        printf("differs: %s with 1,000,000 pages of tree %d: %d %d %d %d\n", names[call], (int)tree, found[0], found[1], found[2], found[3]);
    }
    munmap(table, 8 * many);
    *table_of(s, tree) = lent;
    *length_of(s, tree) = length;
    end_case(t);
}

int main(void)
{
    for (int call = 0; call < CALLS; call++)
        for (unsigned conditions = 0; conditions < sets_of((enum call)call); conditions++)
            for (int way = 0; way < WAYS; way++)
                try_case((enum call)call, conditions, (enum way)way);
    many_pages(START, STARTS);
    many_pages(START, TIME);
    many_pages(END, ENDS);
    many_pages(END, TIME);
    printf("refusals: %lu compared, %lu differed\n", compared, differed);
    return differed != 0;
}
