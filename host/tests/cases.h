/* Cases of the refusals: a case is a set of conditions, each of which spoils a store on which the call is accepted. For 20 there are many ways to
 * spoil the head; all combinations are tried with each of them. A start and an end write two trees, so that 26, 27 and 28 may each be of one tree, of
 * the other or of both: the way says of which, and all combinations of this come too. Three conditions are no ground for a refusal, and are tried
 * in all combinations like the others. tests/refusals.c makes each call by itself, tests/bursts.c the starts and ends as events of bursts,
 * tests/blocks.c the starts, ends, questions and bat-times through a register block. */
#ifndef CASES_H
#define CASES_H

#include "lent.h"

#define UNTOUCHED 0x1234567u
#define HEAD_BYTES (sizeof(uint32_t) * NIMBLESHALE_HEAD_NUMBERS)

/* A store with the head in a slice of its own, so that a number read behind it is a crash. */
struct tried {
    struct nimbleshale_store store;
    uint32_t *head;
};

enum call { OPEN, START, END, QUESTION, BAT_TIME, LOOKUP_STARTS, LOOKUP_ENDS, LOOKUP_TIME, CALLS };

enum tree { STARTS, ENDS, TIME, TREES };

/* Conditions that refuse nothing. CLICK: an end at the pass's own start tick. FROM_ZERO: from tick 0 on, where a question opens no page of the tree of
 * ends, which is spoiled, and a bat-time makes no lookup at an earlier tick, for which there is no root. BESIDE: each tree that the call
 * does not look at is spoiled. */
enum { CLICK = 253, FROM_ZERO = 254, BESIDE = 255 };

/* The refusals of each call in document 01's order, 0 behind them. */
static const uint8_t orders[CALLS][12] = {
    {8, 0},
    {1, 3, 4, 20, 21, 24, 25, BESIDE, 26, 27, 28, 0},
    {4, 20, 21, 22, CLICK, BESIDE, 26, 27, 28, 0},
    {1, 2, 5, 20, FROM_ZERO, BESIDE, 26, 0},
    {1, 2, 5, 20, FROM_ZERO, BESIDE, 26, 0},
    {1, 4, 20, BESIDE, 26, 0},
    {1, 4, 20, BESIDE, 26, 0},
    {1, 4, 20, BESIDE, 26, 0},
};

/* The two trees that each call but an opening looks at, or the only one. */
static const enum tree looked_at[CALLS][2] = {
    {STARTS, STARTS}, {STARTS, TIME}, {ENDS, TIME}, {STARTS, ENDS}, {TIME, TIME}, {STARTS, STARTS}, {ENDS, ENDS}, {TIME, TIME},
};

/* Ways to spoil the head. From USES on they are of what a tree uses: five for each tree. There are 27 of them, so that three numbers from 0 to 2, by
 * which 26, 27 and 28 are of one tree or another, take all their values together. */
enum way {
    OPEN_65, OPEN_ALL, KEY_HIGH, WEIGHT_NONE, WEIGHT_HIGH, NUMBER_FALLS, NUMBER_TWICE, NUMBER_REACHES, START_LATE, STARTED_MANY, STARTED_ALL, PAGES_ALL,
    USES, WAYS = USES + 5 * TREES
};

enum { PAGES_NONE, ROOTS_NONE, PAGES_OVER_TABLE, ROOTS_OVER_PAGES, ROOTS_OVER_LIST };

static inline int holds(unsigned conditions, enum call call, uint8_t refusal)
{
    for (int at = 0; orders[call][at] != 0; at++)
        if (orders[call][at] == refusal)
            return (int)(conditions >> at & 1);
    return 0;
}

/* Whether a condition of the trees holds of a tree that a call looks at: of the first, of the second or of both, by a number that takes all values from
 * 0 to 2 over the ways. */
static inline int holds_of(unsigned conditions, enum call call, uint8_t refusal, enum tree tree, unsigned number)
{
    const int first = tree == looked_at[call][0] && number != 1, second = tree == looked_at[call][1] && number != 0;
    return holds(conditions, call, refusal) && (first || second);
}

static inline int is_spoiled(unsigned conditions, enum call call, enum way way, enum tree tree)
{
    if (call == QUESTION && holds(conditions, call, FROM_ZERO))
        return tree == ENDS || (tree == STARTS && holds(conditions, call, 26)) || (tree == TIME && holds(conditions, call, BESIDE));
    if (tree != looked_at[call][0] && tree != looked_at[call][1])
        return holds(conditions, call, BESIDE);
    return holds_of(conditions, call, 26, tree, way % 3);
}

static inline size_t pages_of(unsigned conditions, enum call call, enum way way, enum tree tree)
{
    return holds_of(conditions, call, 27, tree, way / 3 % 3) ? 3 : 4;
}

static inline size_t roots_of(unsigned conditions, enum call call, enum way way, enum tree tree)
{
    return holds_of(conditions, call, 28, tree, way / 9 % 3) ? 1 : 2;
}

/* A leaf of 64 rows of equal width, all live, in page 0: entering a point makes three pages and a root entry. A spoiled one says that it has 65. */
static inline void write_leaf(uint64_t *table, int spoiled)
{
    table[0] = 0;
    table[1] = spoiled ? 65 : 64;
    table[2] = (uint64_t)30000 << 16;
    table[3] = 0;
    for (uint64_t row = 0; row < 64; row++) {
        table[4 + 4 * row] = 400 * row + 65536 * (row == 63 ? 30000 : 400 * row + 400);
        table[5 + 4 * row] = (uint64_t)4294967295u << 32;
        table[6 + 4 * row] = 0;
        table[7 + 4 * row] = 0;
    }
}

/* Spoils what a tree uses in one way, of which some go by the pages of its table. */
static inline void spoil_use(uint32_t *head, enum tree tree, unsigned fault, size_t pages)
{
    uint32_t *pages_used = head + NIMBLESHALE_HEAD_START_PAGES + 2 * tree, *roots_used = head + NIMBLESHALE_HEAD_START_ROOTS + 2 * tree;
    switch (fault) {
    case PAGES_NONE: *pages_used = 0; break;
    case ROOTS_NONE: *roots_used = 0; break;
    case PAGES_OVER_TABLE: *pages_used = (uint32_t)pages + 1; break;
    case ROOTS_OVER_PAGES: *roots_used = 2; break;
    case ROOTS_OVER_LIST: *pages_used = *roots_used = 3; break;
    default: break;
    }
}

/* Spoils the head in one way that is not of what a tree uses. */
static inline void spoil_head(uint32_t *head, enum way way)
{
    uint32_t *passes = head + NIMBLESHALE_HEAD_PASSES, *open = head + NIMBLESHALE_HEAD_OPEN;
    switch (way) {
    case OPEN_65: *open = 65; break;
    case OPEN_ALL: *open = 4294967295u; break;
    case KEY_HIGH: passes[9] = 30000; break;
    case WEIGHT_NONE: passes[10] = 0; break;
    case WEIGHT_HIGH: passes[10] = 10001; break;
    case NUMBER_FALLS: passes[8] = 1; break;
    case NUMBER_TWICE: passes[8] = 2; break;
    case NUMBER_REACHES: passes[4 * (*open - 1)] = head[NIMBLESHALE_HEAD_STARTED]; break;
    case START_LATE: passes[11] = head[NIMBLESHALE_HEAD_LAST] + 1; break;
    case STARTED_MANY: head[NIMBLESHALE_HEAD_STARTED] = 1000001; break;
    case STARTED_ALL: head[NIMBLESHALE_HEAD_STARTED] = 4294967295u; break;
    case PAGES_ALL: head[NIMBLESHALE_HEAD_TIME_PAGES] = 4294967295u; break;
    default: break;
    }
}

/* The memory of a case. Words behind the last whole page are lent to each tree. For an opening that gets 8 one table lacks a word, or one list is empty. */
static inline void lend_case(struct tried *tried, enum call call, unsigned conditions, enum way way)
{
    const size_t behind[TREES] = {259, 7, 130};
    size_t words[TREES], roots[TREES];
    for (unsigned tree = 0; tree < TREES; tree++) {
        words[tree] = NIMBLESHALE_TABLE_WORDS(pages_of(conditions, call, way, (enum tree)tree)) + behind[tree];
        roots[tree] = roots_of(conditions, call, way, (enum tree)tree);
    }
    if (call == OPEN)
        for (unsigned tree = 0; tree < TREES; tree++) {
            words[tree] = holds(conditions, OPEN, 8) && way % 6 == 2 * tree ? 259 : 260;
            roots[tree] = holds(conditions, OPEN, 8) && way % 6 == 2 * tree + 1 ? 0 : 1;
        }
    lend_store(&tried->store, words[STARTS], roots[STARTS], words[ENDS], roots[ENDS], words[TIME], roots[TIME]);
    tried->head = lend(HEAD_BYTES);
}

/* The head of a case, but for 20. */
static inline void write_head(uint32_t *head, enum call call, unsigned conditions)
{
    head[NIMBLESHALE_HEAD_LAST] = holds(conditions, call, 21) ? 101 : 90;
    head[NIMBLESHALE_HEAD_STARTED] = holds(conditions, call, 25) ? 1000000 : 70;
    head[NIMBLESHALE_HEAD_OPEN] = holds(conditions, call, 24) ? 64 : 3;
    for (uint32_t at = NIMBLESHALE_HEAD_START_PAGES; at < NIMBLESHALE_HEAD_PASSES; at++)
        head[at] = 1;
    for (uint32_t place = 0; place < head[NIMBLESHALE_HEAD_OPEN]; place++) {
        uint32_t *pass = head + NIMBLESHALE_HEAD_PASSES + 4 * place;
        pass[0] = place + 1;
        pass[1] = 450;
        pass[2] = 10000;
        pass[3] = 80;
    }
    if (holds(conditions, call, CLICK))
        head[NIMBLESHALE_HEAD_PASSES + 7] = head[NIMBLESHALE_HEAD_LAST] == 90 ? 90 : 100;
}

/* The store of a case, with the conditions that are not of the arguments. */
static inline void begin(struct tried *tried, enum call call, unsigned conditions, enum way way)
{
    struct nimbleshale_store *store = &tried->store;
    lend_case(tried, call, conditions, way);
    if (call == OPEN)
        return;
    write_leaf(store->start_table, is_spoiled(conditions, call, way, STARTS));
    write_leaf(store->end_table, is_spoiled(conditions, call, way, ENDS));
    write_leaf(store->time_table, is_spoiled(conditions, call, way, TIME));
    /* Born at 60, where a bat-time from tick 50 on would look up an earlier one. */
    if (call == BAT_TIME && holds(conditions, call, FROM_ZERO))
        store->time_roots[0] = 60;
    write_head(tried->head, call, conditions);
    if (!holds(conditions, call, 20))
        return;
    if (way < USES)
        spoil_head(tried->head, way);
    else {
        const enum tree tree = (enum tree)((way - USES) / 5);
        spoil_use(tried->head, tree, (way - USES) % 5, pages_of(conditions, call, way, tree));
    }
}

/* The arguments of a start, an end or a lookup, with the conditions that are of them. */
struct arguments {
    uint32_t tick, key, weight, number;
};

static inline struct arguments arguments_of(enum call call, unsigned conditions, enum way way)
{
    /* The last one has an open pass's number in its two low bytes. */
    static const uint32_t not_open[3] = {0, 69, 65536 + 2};
    struct arguments of;
    of.key = holds(conditions, call, 1) ? (way % 2 ? 30000 : 4294967295u) : 450;
    of.weight = holds(conditions, call, 3) ? (way % 2 ? 0 : 10001) : 1;
    of.tick = holds(conditions, call, 4) ? 4294967295u : 100;
    of.number = 2;
    /* An end at the pass's own start tick is at tick 90, which is the last tick, or at 100, before it. */
    if (holds(conditions, call, CLICK) && !holds(conditions, call, 21) && !holds(conditions, call, 4))
        of.tick = 90;
    if (holds(conditions, call, 22))
        of.number = not_open[way % 3];
    return of;
}

/* The arguments of a question or a bat-time, with the conditions that are of them. */
struct asked {
    uint32_t k1, k2, t1, t2;
};

static inline struct asked asked_of(enum call call, unsigned conditions, enum way way)
{
    struct asked of = {450, 30000, 50, 4294967295u};
    if (holds(conditions, call, 2))
        of.k2 = way % 2 ? 450 : 449;
    if (holds(conditions, call, 1)) {
        if (way % 2)
            of.k1 = holds(conditions, call, 2) ? 30000 : 4294967295u;
        else
            of.k2 = 30001, of.k1 = holds(conditions, call, 2) ? 30002 : of.k1;
    }
    if (holds(conditions, call, FROM_ZERO))
        of.t1 = 0;
    if (holds(conditions, call, 5))
        of.t2 = way % 2 ? of.t1 : 0;
    return of;
}

/* The first refusal of a case, or 0. */
static inline uint8_t first_refusal(enum call call, unsigned conditions)
{
    for (int at = 0; orders[call][at] != 0; at++)
        if (conditions >> at & 1 && orders[call][at] < CLICK)
            return orders[call][at];
    return 0;
}

/* How many sets of conditions a call has. */
static inline unsigned sets_of(enum call call)
{
    unsigned sets = 1;
    for (int at = 0; orders[call][at] != 0; at++)
        sets *= 2;
    return sets;
}

/* What every function gets: the head and the six slices. */
#define LENT \
    t->head, s->start_table, s->start_table_length, s->start_roots, s->start_roots_length, s->end_table, s->end_table_length, s->end_roots, \
    s->end_roots_length, s->time_table, s->time_table_length, s->time_roots, s->time_roots_length

static inline uint64_t digest_tried(const struct tried *tried)
{
    return digest_lent(tried->head, &tried->store);
}

static inline void end_case(struct tried *tried)
{
    give_back_store(&tried->store);
    give_back(tried->head, HEAD_BYTES);
}

#endif
