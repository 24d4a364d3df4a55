/* Every call that answers something, made for nothing: the compiler must warn of each, 22 times in all, and of no other. This program is never run. */
#include <nimbleshale.h>

static uint32_t number, head[NIMBLESHALE_HEAD_NUMBERS];
static uint64_t word, table[NIMBLESHALE_TABLE_WORDS(1)];
static uint8_t byte, bytes[1], block[NIMBLESHALE_BLOCK_BYTES];
static size_t taken, written;
static struct nimbleshale_store store;
static struct nimbleshale_totals totals;
static struct nimbleshale_time bat_time;
static struct nimbleshale_line line;

#define LENT head, table, 260, &word, 1, table, 260, &word, 1, table, 260, &word, 1

int main(void)
{
    nimbleshale_open(LENT);
    nimbleshale_start(LENT, 0, 0, 0, &number);
    nimbleshale_end(LENT, 0, 0);
    nimbleshale_question(LENT, 0, 0, 0, 0, &word, &word, &number);
    nimbleshale_bat_time(LENT, 0, 0, 0, 0, &word, &number);
    nimbleshale_lookup_starts(LENT, 0, 0, &word, &word, &number);
    nimbleshale_lookup_ends(LENT, 0, 0, &word, &word, &number);
    nimbleshale_lookup_time(LENT, 0, 0, &word, &word, &number);
    nimbleshale_commands(LENT, &byte, 1, 0, bytes, 1, &taken, &written);
    nimbleshale_burst(LENT, &byte, 1, &word, 1);
    nimbleshale_block_read(block, 0);
    nimbleshale_block_line(block);
    nimbleshale_block_reset(block);
    nimbleshale_block_write(block, 0, 0, LENT);
    nimbleshale_store_open(&store);
    nimbleshale_store_start(&store, 0, 0, 0, &number);
    nimbleshale_store_end(&store, 0, 0);
    nimbleshale_store_question(&store, 0, 0, 0, 0, &totals);
    nimbleshale_store_bat_time(&store, 0, 0, 0, 0, &bat_time);
    nimbleshale_store_lookup_starts(&store, 0, 0, &totals);
    nimbleshale_store_lookup_ends(&store, 0, 0, &totals);
    nimbleshale_store_lookup_time(&store, 0, 0, &line);
    nimbleshale_store_commands(&store, &byte, 1, 0, bytes, 1, &taken, &written);
    nimbleshale_store_burst(&store, &byte, 1, &word, 1);
    nimbleshale_store_block_write(&store, block, 0, 0);
    return 0;
}
