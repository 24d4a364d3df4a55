/* The library as the detector: a store as large as the command program's, and a register block beside it. */
#include "detector.h"
#include <stdio.h>
#include <stdlib.h>

/* "the program's tables shrink to 10 pages and 10 roots a tree" (document 02, Paper 4) */
#define PAGES 10
#define ROOTS 10

static uint64_t start_table[NIMBLESHALE_TABLE_WORDS(PAGES)], start_roots[ROOTS], end_table[NIMBLESHALE_TABLE_WORDS(PAGES)], end_roots[ROOTS];
static uint64_t time_table[NIMBLESHALE_TABLE_WORDS(PAGES)], time_roots[ROOTS];
static struct nimbleshale_store store;
static uint8_t block[NIMBLESHALE_BLOCK_BYTES];

int begin_detector(int count, char **arguments)
{
    (void)arguments;
    if (count != 0)
        return 0;
    store.start_table = start_table;
    store.end_table = end_table;
    store.time_table = time_table;
    store.start_table_length = store.end_table_length = store.time_table_length = NIMBLESHALE_TABLE_WORDS(PAGES);
    store.start_roots = start_roots;
    store.end_roots = end_roots;
    store.time_roots = time_roots;
    store.start_roots_length = store.end_roots_length = store.time_roots_length = ROOTS;
    if (nimbleshale_store_open(&store) != NIMBLESHALE_ACCEPTED) {
        fprintf(stderr, "desk: the library opens no store\n");
        exit(2);
    }
    nimbleshale_block_reset(block);
    return 1;
}

void answer_command(const uint8_t *command, size_t length, uint8_t answer[NIMBLESHALE_LONGEST_ANSWER])
{
    size_t taken = 0, written = 0;
    if (nimbleshale_store_commands(&store, command, length, 0, answer, NIMBLESHALE_LONGEST_ANSWER, &taken, &written) != 0 || taken != length ||
        written == 0) {
        fprintf(stderr, "desk: the library does not run a command\n");
        exit(2);
    }
}

int end_detector(void)
{
    return 0;
}

static uint8_t read_byte(size_t offset)
{
    return nimbleshale_block_read(block, offset);
}

static void write_byte(size_t offset, uint8_t value)
{
    nimbleshale_store_block_write(&store, block, offset, value);
}

static uint8_t see_line(void)
{
    return nimbleshale_block_line(block);
}

static void reset(void)
{
    nimbleshale_block_reset(block);
}

static const struct registers linked = {read_byte, write_byte, see_line, reset};

const struct registers *const registers = &linked;
