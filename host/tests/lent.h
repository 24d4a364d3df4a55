/* Memory that the tests lend: each slice ends right before a page that may not be touched, so that a word read or written behind it is a
 * crash, and begins behind words that are checked when the slice is given back. */
#ifndef LENT_H
#define LENT_H

#include <nimbleshale.h>
#include <stdint.h>
#include <stdio.h>
#include <stdlib.h>
#include <string.h>
#include <sys/mman.h>
#include <unistd.h>

#define LENT_GUARD 0x5aa55aa55aa55aa5u

/* The bytes of the mapping of a slice, without the page behind it. At least one guard word fits before the slice. */
static inline size_t lent_room(size_t bytes)
{
    size_t page = (size_t)sysconf(_SC_PAGESIZE);
    return (bytes + 8 + page - 1) / page * page;
}

/* Slices that were given back, for the next of the same length: to map memory takes longer than most calls do. */
#define LENT_KEPT 128

struct kept_slice {
    void *slice;
    size_t bytes;
};

static inline struct kept_slice *kept_slices(void)
{
    static struct kept_slice kept[LENT_KEPT];
    return kept;
}

/* A slice that is kept, or NULL. */
static inline void *take_kept(size_t bytes)
{
    struct kept_slice *kept = kept_slices();
    size_t at;
    for (at = 0; at < LENT_KEPT; at++)
        if (kept[at].slice != NULL && kept[at].bytes == bytes) {
            void *slice = kept[at].slice;
            kept[at].slice = NULL;
            return memset(slice, 0, bytes);
        }
    return NULL;
}

/* Returns 0 where there is no place for one more. */
static inline int keep(void *slice, size_t bytes)
{
    struct kept_slice *kept = kept_slices();
    size_t at = 0;
    while (at < LENT_KEPT && kept[at].slice != NULL)
        at++;
    if (at == LENT_KEPT)
        return 0;
    kept[at].slice = slice;
    kept[at].bytes = bytes;
    return 1;
}

/* A slice of zeros. */
static inline void *lend(size_t bytes)
{
    size_t room = lent_room(bytes), page = (size_t)sysconf(_SC_PAGESIZE);
    unsigned char *base = take_kept(bytes);
    uint64_t guard = LENT_GUARD;
    if (base != NULL)
        return base;
    base = mmap(NULL, room + page, PROT_READ | PROT_WRITE, MAP_PRIVATE | MAP_ANONYMOUS, -1, 0);
    if (base == MAP_FAILED || mprotect(base + room, page, PROT_NONE) != 0) {
        perror("lend");
        exit(2);
    }
    memcpy(base + room - bytes - 8, &guard, 8);
    return base + room - bytes;
}

/* Gives a slice back. A word written before it ends the test. */
static inline void give_back(void *slice, size_t bytes)
{
    size_t room = lent_room(bytes), page = (size_t)sysconf(_SC_PAGESIZE);
    unsigned char *base = (unsigned char *)slice + bytes - room;
    uint64_t guard;
    memcpy(&guard, (unsigned char *)slice - 8, 8);
    if (guard != LENT_GUARD) {
        printf("a word before a slice was written\n");
        exit(1);
    }
    if (!keep(slice, bytes))
        munmap(base, room + page);
}

/* The six slices of a store, all zero. The store's head is for the caller to set. */
static inline void lend_store(struct nimbleshale_store *store, size_t start_table, size_t start_roots, size_t end_table, size_t end_roots,
                              size_t time_table, size_t time_roots)
{
    memset(store, 0, sizeof *store);
    store->start_table = lend(8 * start_table);
    store->start_table_length = start_table;
    store->start_roots = lend(8 * start_roots);
    store->start_roots_length = start_roots;
    store->end_table = lend(8 * end_table);
    store->end_table_length = end_table;
    store->end_roots = lend(8 * end_roots);
    store->end_roots_length = end_roots;
    store->time_table = lend(8 * time_table);
    store->time_table_length = time_table;
    store->time_roots = lend(8 * time_roots);
    store->time_roots_length = time_roots;
}

/* The same, each tree with as many pages and root entries as any other. */
static inline void lend_pages(struct nimbleshale_store *store, size_t pages, size_t roots)
{
    const size_t words = NIMBLESHALE_TABLE_WORDS(pages);
    lend_store(store, words, roots, words, roots, words, roots);
}

static inline void give_back_store(struct nimbleshale_store *store)
{
    give_back(store->start_table, 8 * store->start_table_length);
    give_back(store->start_roots, 8 * store->start_roots_length);
    give_back(store->end_table, 8 * store->end_table_length);
    give_back(store->end_roots, 8 * store->end_roots_length);
    give_back(store->time_table, 8 * store->time_table_length);
    give_back(store->time_roots, 8 * store->time_roots_length);
}

/* One word more in the digest of the trace vectors. */
static inline uint64_t digest_word(uint64_t x, uint64_t word)
{
    x = (x ^ word) * 1099511628211u;
    return x << 23 | x >> 41;
}

static inline uint64_t digest_slice(uint64_t x, const uint64_t *slice, size_t length)
{
    size_t at;
    for (at = 0; at < length; at++)
        x = digest_word(x, slice[at]);
    return x;
}

/* Numbers of a head, from a place on. */
static inline uint64_t digest_numbers(uint64_t x, const uint32_t *head, size_t from, size_t count)
{
    size_t at;
    for (at = from; at < from + count; at++)
        x = digest_word(x, head[at]);
    return x;
}

/* The digest of a head and of all words of a store's slices. The vectors have the open passes before what the trees use. */
static inline uint64_t digest_lent(const uint32_t *head, const struct nimbleshale_store *store)
{
    uint64_t x = 0;
    x = digest_numbers(x, head, 0, NIMBLESHALE_HEAD_START_PAGES);
    x = digest_numbers(x, head, NIMBLESHALE_HEAD_PASSES, NIMBLESHALE_HEAD_NUMBERS - NIMBLESHALE_HEAD_PASSES);
    x = digest_numbers(x, head, NIMBLESHALE_HEAD_START_PAGES, NIMBLESHALE_HEAD_PASSES - NIMBLESHALE_HEAD_START_PAGES);
    x = digest_slice(x, store->start_table, store->start_table_length);
    x = digest_slice(x, store->start_roots, store->start_roots_length);
    x = digest_slice(x, store->end_table, store->end_table_length);
    x = digest_slice(x, store->end_roots, store->end_roots_length);
    x = digest_slice(x, store->time_table, store->time_table_length);
    return digest_slice(x, store->time_roots, store->time_roots_length);
}

static inline uint64_t digest_store(const struct nimbleshale_store *store)
{
    return digest_lent(store->head, store);
}

#endif
