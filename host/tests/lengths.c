/* The header's short calls on slices of six different lengths. In each case one slice is too short, by a word, for what the head says that it
 * holds, and each of the five others would be long enough in its place: a length that is handed for another slice is an answer that differs,
 * or a crash, since each slice ends right before memory that may not be touched. */
#define _DEFAULT_SOURCE
#include "lent.h"

/* No slice is too short. */
#define NONE 6

static unsigned long compared, differed;

enum call { OPEN, START, END, QUESTION, BAT_TIME, LOOKUP_STARTS, LOOKUP_ENDS, LOOKUP_TIME, COMMANDS, BURST, BLOCK_WRITE, CALLS };

static const char *const names[CALLS] = {"open", "start", "end", "question", "bat_time", "lookup_starts", "lookup_ends", "lookup_time", "commands", "burst",
                                         "block_write"};

/* The first command of a packet of two, a question and one that is cut short: what it answers. The packet and the room for answers are of
 * different lengths, as long as they must be and no longer. 254 where not all of both is used. */
static uint8_t make_commands(struct nimbleshale_store *store)
{
    static const uint8_t packet[14] = {3, 1, 0, 0x30, 0x75, 1, 0, 0, 0, 20, 0, 0, 0, 1};
    const size_t room = 2 * NIMBLESHALE_LONGEST_ANSWER;
    uint8_t *input = lend(sizeof packet), *out = lend(room), answer, over;
    size_t taken = 0, written = 0;
    memcpy(input, packet, sizeof packet);
    over = nimbleshale_store_commands(store, input, sizeof packet, 1, out, room, &taken, &written);
    answer = out[0];
    if (over != 1 || taken != sizeof packet || written < 2 || out[written - 1] != NIMBLESHALE_REFUSED_CUT_SHORT)
        answer = 254;
    give_back(input, sizeof packet);
    give_back(out, room);
    return answer;
}

/* The first event of a burst of two, a start and one of unknown kind: what it gets. One result word more is lent, and is left. */
static uint8_t make_burst(struct nimbleshale_store *store)
{
    const size_t length = 2 * NIMBLESHALE_EVENT_BYTES, words = 2 * NIMBLESHALE_RESULT_WORDS + 1;
    uint8_t *events = lend(length), answer;
    uint64_t *results = lend(8 * words);
    nimbleshale_event_start(events, 10, 450, 100);
    results[0] = results[4] = 77;
    answer = nimbleshale_store_burst(store, events, length, results, words);
    if (answer == 0)
        answer = (uint8_t)results[0];
    if (results[1] != (answer == 0 ? 1 : 0) || results[2] != NIMBLESHALE_REFUSED_COMMAND || results[3] != 0 || results[4] != 77)
        answer = 254;
    give_back(events, length);
    give_back(results, 8 * words);
    return answer;
}

/* A start through a register block: its status. 254 where the flags say something else. */
static uint8_t make_block_write(struct nimbleshale_store *store)
{
    uint8_t *block = lend(NIMBLESHALE_BLOCK_BYTES), event[NIMBLESHALE_EVENT_BYTES], answer;
    size_t at;
    nimbleshale_block_reset(block);
    nimbleshale_event_start(event, 10, 450, 100);
    for (at = NIMBLESHALE_EVENT_BYTES; at-- > 0;)
        nimbleshale_store_block_write(store, block, at, event[at]);
    answer = nimbleshale_block_read(block, NIMBLESHALE_BLOCK_STATUS);
    if (nimbleshale_block_read(block, NIMBLESHALE_BLOCK_FLAGS) != (answer == 0 ? 1 : 3) || nimbleshale_block_line(block) != 0)
        answer = 254;
    give_back(block, NIMBLESHALE_BLOCK_BYTES);
    return answer;
}

static uint8_t make(struct nimbleshale_store *store, enum call call)
{
    struct nimbleshale_totals totals;
    struct nimbleshale_time time;
    struct nimbleshale_line line;
    uint32_t number;
    switch (call) {
    case OPEN: return nimbleshale_store_open(store);
    case START: return nimbleshale_store_start(store, 10, 450, 100, &number);
    case END: return nimbleshale_store_end(store, 10, 0);
    case QUESTION: return nimbleshale_store_question(store, 1, 30000, 1, 20, &totals);
    case BAT_TIME: return nimbleshale_store_bat_time(store, 1, 30000, 1, 20, &time);
    case LOOKUP_STARTS: return nimbleshale_store_lookup_starts(store, 10, 450, &totals);
    case LOOKUP_ENDS: return nimbleshale_store_lookup_ends(store, 10, 450, &totals);
    case LOOKUP_TIME: return nimbleshale_store_lookup_time(store, 10, 450, &line);
    case COMMANDS: return make_commands(store);
    case BURST: return make_burst(store);
    case BLOCK_WRITE: return make_block_write(store);
    default: return 255;
    }
}

/* A store over slices that are long enough for all that they shall hold, or one of them not quite. An opening needs a page and a root entry a
 * tree. The other calls get a head that says that two are used: the second root entry is that of page 0 again, at tick 0. */
static void begin(struct nimbleshale_store *store, enum call call, int too_short)
{
    const size_t used = call == OPEN ? 1 : 2, page = NIMBLESHALE_PAGE_WORDS;
    size_t lengths[6] = {used * page + 11, used * page + 12, used * page + 13, used * page + 14, used * page + 15, used * page + 16};
    uint32_t number, at;
    if (too_short != NONE)
        lengths[too_short] = (too_short % 2 == 0 ? used * page : used) - 1;
    lend_store(store, lengths[0], lengths[1], lengths[2], lengths[3], lengths[4], lengths[5]);
    if (call == OPEN)
        return;
    /* Opened and given a pass as long as the slices are, and then said to hold more. */
    compared += 2;
    if (nimbleshale_store_open(store) != 0 || nimbleshale_store_start(store, 5, 450, 100, &number) != 0)
        differed++;
    for (at = NIMBLESHALE_HEAD_START_PAGES; at < NIMBLESHALE_HEAD_PASSES; at++)
        store->head[at] = 2;
    if (store->start_roots_length > 1)
        store->start_roots[1] = 0;
    if (store->end_roots_length > 1)
        store->end_roots[1] = 0;
    if (store->time_roots_length > 1)
        store->time_roots[1] = 0;
}

static void try_case(enum call call, int too_short)
{
    struct nimbleshale_store store;
    uint8_t wanted = too_short == NONE ? 0 : call == OPEN ? NIMBLESHALE_REFUSED_MEMORY : NIMBLESHALE_REFUSED_HEAD, refusal;
    begin(&store, call, too_short);
    refusal = make(&store, call);
    compared++;
    if (refusal != wanted) {
        differed++;
        printf("differs: nimbleshale_store_%s, slice %d too short: %d, not %d\n", names[call], too_short, refusal, wanted);
    }
    give_back_store(&store);
}

int main(void)
{
    for (int call = 0; call < CALLS; call++)
        for (int too_short = 0; too_short <= NONE; too_short++)
            try_case((enum call)call, too_short);
    printf("lengths: %lu compared, %lu differed\n", compared, differed);
    return differed != 0;
}
