/* The command stream in pieces, by nimbleshale_commands: wherever the input is cut and whatever room for answers a call has, all that is written
 * is what the whole input must write, and the store is word for word what single calls leave.
 *
 * pieces STREAMS */
#define _DEFAULT_SOURCE
#include "stream.h"

#define UNSET 0xa5a5a5a5u
#define UNTOUCHED 0x5a

/* Streams of up to this number of bytes are cut at every place. */
#define SHORT 1000

/* Random ways to cut each stream. */
#define WAYS 24

/* The streams of host/vectors, and P1: with fewer the test is not the one that it should be. */
#define STREAMS 41

/* Document 01's trial P1 as Paper 2 of document 02 reworks it: its whole input and its whole output. */
static char trial[] = "P1 010a00000094116400" "011400000098083200" "021e00000000000000" "03a00f88131e00000028000000"
                      "030000307519000000" "1a000000" "021e00000000000000 "
                      "0000000000" "0001000000" "00" "000100000000000000640000000000000004" "000200000000000000960000000000000002" "16";

static unsigned long compared, differed;

/* What came about: runs of a stream, calls, and of these such as waited for room, such as waited for bytes, and such as were told the end. */
static unsigned long runs, calls, waited_for_room, waited_for_bytes, told_end;

static void judge(int same, const char *name, const char *what)
{
    compared++;
    if (same)
        return;
    differed++;
    if (differed <= 10)
        printf("differs: %s: %s\n", name, what);
}

/* A small random generator (splitmix64), so that every run is the same: a number up to a most. */
static uint64_t state;

static size_t up_to(size_t most)
{
    uint64_t x = state += 0x9e3779b97f4a7c15u;
    x = (x ^ x >> 30) * 0xbf58476d1ce4e5b9u;
    x = (x ^ x >> 27) * 0x94d049bb133111ebu;
    return (size_t)((x ^ x >> 31) % (most + 1));
}

/* Bytes that are lent for a call: the last ones of a slice that ends right before memory that may not be touched. What stands before them is looked
 * at after the call. */
#define MOST 20000
#define BEFORE 8

static uint8_t *bytes_in, *bytes_out;

static uint8_t *last_bytes(uint8_t *slice, size_t count)
{
    if (count > MOST)
        exit(2);
    memset(slice + MOST - count, UNTOUCHED, BEFORE + count);
    return slice + BEFORE + MOST - count;
}

/* Whether bytes are as they were before the call. */
static int untouched(const uint8_t *bytes, size_t count)
{
    size_t at = 0;
    while (at < count && bytes[at] == UNTOUCHED)
        at++;
    return at == count;
}

/* What the whole input comes to, by single calls: how many bytes are taken, whether 6 or 7 ends the run, and the store. */
struct whole {
    const struct vector *vector;
    size_t taken;
    int stopped;
    uint64_t digest;
};

/* A run in pieces: the bytes that came and those that were taken, all that was written, and whether the run is over. */
struct feed {
    const struct whole *whole;
    struct nimbleshale_store store;
    size_t came, taken, written;
    unsigned char *output;
    int over;
};

static void begin(struct feed *feed, const struct whole *whole)
{
    memset(feed, 0, sizeof *feed);
    feed->whole = whole;
    feed->output = malloc(whole->vector->wanted_length + 1);
    if (feed->output == NULL)
        exit(2);
    lend_program_store(&feed->store);
    judge(nimbleshale_store_open(&feed->store) == 0, whole->vector->name, "the opening");
    runs++;
}

/* After the last call. */
static void finish(struct feed *feed)
{
    const struct vector *vector = feed->whole->vector;
    judge(feed->over, vector->name, "the run is not over");
    judge(feed->written == vector->wanted_length && memcmp(feed->output, vector->wanted, feed->written) == 0, vector->name, "what is written");
    judge(digest_store(&feed->store) == feed->whole->digest, vector->name, "the store");
    give_back_store(&feed->store);
    free(feed->output);
}

/* A call must stop where it stops: the run is over, nothing is left, or the next command waits. */
static void judge_stop(const struct feed *feed, size_t room_left, int ended)
{
    const struct vector *vector = feed->whole->vector;
    const size_t left = feed->came - feed->taken;
    if (feed->over) {
        judge(feed->taken == feed->whole->taken && (feed->whole->stopped || ended), vector->name, "the run is over too early");
        return;
    }
    if (left > 0 && room_left < NIMBLESHALE_LONGEST_ANSWER)
        waited_for_room++;
    else if (left > 0 && !ended && left < command_length(vector->input[feed->taken]))
        waited_for_bytes++;
    else
        judge(left == 0 && !ended, vector->name, "a command waits for nothing");
}

/* What a call took and wrote is counted. Where that cannot be, the run ends here. */
static int counted(struct feed *feed, size_t length, size_t taken, size_t room, size_t written, const uint8_t *out)
{
    const struct vector *vector = feed->whole->vector;
    const int can_be = taken <= length && written <= room && written <= vector->wanted_length - feed->written;
    judge(can_be, vector->name, "more is taken or written than can be");
    if (!can_be)
        return 0;
    memcpy(feed->output + feed->written, out, written);
    feed->taken += taken;
    feed->written += written;
    return 1;
}

/* One call: more bytes have come, and there is some room for answers. Both slices end right before memory that may not be touched. */
static void hand_over(struct feed *feed, size_t more, size_t room, uint8_t ended)
{
    const struct vector *vector = feed->whole->vector;
    const unsigned char *waiting = vector->input + feed->taken;
    const size_t length = feed->came + more - feed->taken;
    size_t taken = UNSET, written = UNSET;
    uint8_t *input = last_bytes(bytes_in, length), *out = last_bytes(bytes_out, room), over;
    memcpy(input, waiting, length);
    over = nimbleshale_store_commands(&feed->store, input, length, ended, out, room, &taken, &written);
    calls++;
    told_end += ended != 0;
    feed->came += more;
    feed->over = over != 0;
    judge(over <= 1, vector->name, "the answer is neither 0 nor 1");
    judge(memcmp(input, waiting, length) == 0 && untouched(input - BEFORE, BEFORE), vector->name, "the input is written");
    if (!counted(feed, length, taken, room, written, out)) {
        feed->over = 1;
        return;
    }
    judge(untouched(out - BEFORE, BEFORE) && untouched(out + written, room - written), vector->name, "bytes beside the answers are written");
    judge_stop(feed, room - written, ended != 0);
}

/* The whole input in one call, with the least room that is always enough. */
static void try_whole(const struct whole *whole)
{
    const size_t length = whole->vector->length;
    struct feed feed;
    begin(&feed, whole);
    hand_over(&feed, length, NIMBLESHALE_ROOM(length), 1);
    finish(&feed);
}

/* Two pieces, cut at every place; room is enough, so each is one call. */
static void try_cuts(const struct whole *whole)
{
    const size_t length = whole->vector->length;
    size_t cut;
    for (cut = 0; cut <= length; cut++) {
        struct feed feed;
        begin(&feed, whole);
        hand_over(&feed, cut, NIMBLESHALE_ROOM(cut), 0);
        if (!feed.over)
            hand_over(&feed, length - cut, NIMBLESHALE_ROOM(length), 1);
        finish(&feed);
    }
}

/* The whole input over and over, each time with the same room. A byte at least is taken each time, or the run is over. */
static void try_room(const struct whole *whole, size_t room)
{
    const struct vector *vector = whole->vector;
    struct feed feed;
    begin(&feed, whole);
    hand_over(&feed, vector->length, room, 1);
    while (!feed.over) {
        const size_t before = feed.taken;
        hand_over(&feed, 0, room, 1);
        judge(feed.over || feed.taken > before, vector->name, "a call with room takes nothing");
        if (feed.taken == before)
            break;
    }
    finish(&feed);
}

/* Too little room for any answer: nothing is taken. */
static void try_no_room(const struct whole *whole, size_t room)
{
    struct feed feed;
    begin(&feed, whole);
    hand_over(&feed, whole->vector->length, room, 1);
    judge(!feed.over && feed.taken == 0 && feed.written == 0, whole->vector->name, "a command is run without room");
    give_back_store(&feed.store);
    free(feed.output);
}

/* Random pieces and random room, from none up. The end is told with the last bytes or after them, as any number but 0. */
static void try_random(const struct whole *whole, size_t most_bytes, size_t most_room)
{
    const size_t length = whole->vector->length, limit = 200 + 20 * length;
    size_t made;
    struct feed feed;
    begin(&feed, whole);
    for (made = 0; !feed.over && made < limit; made++) {
        size_t more = up_to(most_bytes), left = length - feed.came;
        if (more > left)
            more = left;
        hand_over(&feed, more, up_to(most_room), (uint8_t)(more == left && up_to(1) == 1 ? 1 + up_to(254) : 0));
    }
    finish(&feed);
}

static void try_stream(const struct vector *vector)
{
    static const size_t most_bytes[6] = {1, 4, 13, 40, 400, 5000}, most_room[4] = {36, 60, 400, 9000};
    struct stream stream;
    struct whole whole;
    size_t way;
    judge(run_stream(&stream, vector), vector->name, "the opening");
    judge(stream.written == vector->wanted_length && memcmp(stream.output, vector->wanted, stream.written) == 0, vector->name, "single calls");
    whole.vector = vector;
    whole.taken = vector->length - stream.left;
    whole.stopped = stream.stopped;
    whole.digest = digest_store(&stream.store);
    give_back_stream(&stream);
    try_whole(&whole);
    try_room(&whole, NIMBLESHALE_LONGEST_ANSWER);
    if (vector->length <= SHORT)
        try_cuts(&whole);
    for (way = 0; way < WAYS; way++)
        try_random(&whole, most_bytes[way % 6], most_room[way / 6 % 4]);
    for (way = 0; strcmp(vector->name, "P1") == 0 && way <= NIMBLESHALE_ROOM(vector->length); way++)
        (way < NIMBLESHALE_LONGEST_ANSWER ? try_no_room : try_room)(&whole, way);
}

static void try_line(char *line)
{
    struct vector vector = vector_of(line);
    try_stream(&vector);
    free_vector(&vector);
}

int main(int count, char **names)
{
    char *line = NULL;
    size_t room = 0, streams = 1;
    FILE *file;
    if (count != 2)
        return 2;
    file = opened(names[1]);
    bytes_in = lend(BEFORE + MOST);
    bytes_out = lend(BEFORE + MOST);
    try_line(trial);
    for (; getline(&line, &room, file) > 0; streams++)
        try_line(line);
    free(line);
    printf("pieces: %lu streams in %lu runs, %lu calls, of which %lu waited for room, %lu for bytes, and %lu were told the end: ",
           (unsigned long)streams, runs, calls, waited_for_room, waited_for_bytes, told_end);
    printf("%lu compared, %lu differed\n", compared, differed);
    return differed != 0 || streams < STREAMS;
}
