/*
 * An example of firmware around the pass index: it lends static memory, records what the ear hears, answers the radio, tells the bat-time of a band,
 * keeps the store over a power cycle, runs the radio's packets of commands, enters in one burst what it heard while the radio talked, serves a radio
 * chip that has a register block, and shows what a detector can do about each refusal. The memory is small, so that it runs full within the example;
 * a detector lends thousands of pages.
 */
#include <nimbleshale.h>
#include <stdio.h>
#include <string.h>

#define START_PAGES 8
#define END_PAGES 1
#define ROOTS 8

/* The tree of time takes the points of both others. */
#define TIME_PAGES 16
#define TIME_ROOTS 16

/* How often one event is tried. Each refusal that can be mended is mended once; an event that then meets yet another is dropped. */
#define TRIES 3

static uint64_t start_table[NIMBLESHALE_TABLE_WORDS(START_PAGES)];
static uint64_t start_roots[ROOTS];
static uint64_t end_table[NIMBLESHALE_TABLE_WORDS(END_PAGES)];
static uint64_t end_roots[ROOTS];
static uint64_t time_table[NIMBLESHALE_TABLE_WORDS(TIME_PAGES)];
static uint64_t time_roots[TIME_ROOTS];

static struct nimbleshale_store store;

/* What the firmware tells with its next status report. */
static unsigned dropped, memory_faults, stores_opened;

static void lend_memory(size_t length_of_start_roots)
{
    store.start_table = start_table;
    store.start_table_length = sizeof start_table / sizeof *start_table;
    store.start_roots = start_roots;
    store.start_roots_length = length_of_start_roots;
    store.end_table = end_table;
    store.end_table_length = sizeof end_table / sizeof *end_table;
    store.end_roots = end_roots;
    store.end_roots_length = ROOTS;
    store.time_table = time_table;
    store.time_table_length = sizeof time_table / sizeof *time_table;
    store.time_roots = time_roots;
    store.time_roots_length = TIME_ROOTS;
}

static void say(const char *what, uint8_t refusal)
{
    printf("%s: refusal %u, %s\n", what, (unsigned)refusal, nimbleshale_refusal_text(refusal));
}

static void say_band(uint32_t k1, uint32_t k2, uint32_t t1, uint32_t t2)
{
    printf("keys %lu to %lu, ticks %lu to %lu: ", (unsigned long)k1, (unsigned long)k2, (unsigned long)t1, (unsigned long)t2);
}

static void count_fault(uint8_t refusal)
{
    if (refusal == NIMBLESHALE_REFUSED_HEAD || refusal == NIMBLESHALE_REFUSED_SPOILED)
        memory_faults++;
}

/* The radio asks. A refusal goes back to it as it is. The store is kept even where memory is damaged: other pages may still be sound. */
static void on_question(uint32_t k1, uint32_t k2, uint32_t t1, uint32_t t2)
{
    struct nimbleshale_totals totals;
    uint8_t refusal = nimbleshale_store_question(&store, k1, k2, t1, t2, &totals);
    if (refusal == NIMBLESHALE_ACCEPTED) {
        say_band(k1, k2, t1, t2);
        printf("%llu passes, weight %llu, %lu pages opened\n", (unsigned long long)totals.count, (unsigned long long)totals.sum,
               (unsigned long)totals.pages);
    } else {
        say("question", refusal);
    }
    count_fault(refusal);
}

/* The consultancy asks for the bat-time of a band: weight in hundredths times ticks of 10 ms. */
static void on_bat_time(uint32_t k1, uint32_t k2, uint32_t t1, uint32_t t2)
{
    struct nimbleshale_time time;
    uint8_t refusal = nimbleshale_store_bat_time(&store, k1, k2, t1, t2, &time);
    if (refusal == NIMBLESHALE_ACCEPTED) {
        say_band(k1, k2, t1, t2);
        printf("bat-time %llu, %lu pages opened\n", (unsigned long long)time.total, (unsigned long)time.pages);
    } else {
        say("bat-time", refusal);
    }
    count_fault(refusal);
}

/* Makes an empty store. Returns 0 where the memory lent is too small, which no later call can mend. */
static int open_store(void)
{
    uint8_t refusal = nimbleshale_store_open(&store);
    if (refusal != NIMBLESHALE_ACCEPTED) {
        say("opening", refusal);
        return 0;
    }
    stores_opened++;
    printf("store %u opened\n", stores_opened);
    return 1;
}

/* A store that takes no more is reported as far as it answers, and a new one begins in the same memory. Passes that are still open were
 * counted in the report; their ends get refusal 22 from the new store, and on_end lets them go. */
static int open_anew(void)
{
    printf("report: ");
    on_question(0, NIMBLESHALE_KEYS, 0, NIMBLESHALE_TICKS);
    return open_store();
}

/* What a refused start or end calls for. Returns 1 where the event can be tried again, perhaps at another tick. */
static int mend(uint8_t refusal, uint32_t *tick)
{
    uint32_t oldest = nimbleshale_store_pass(&store, 0).number;
    switch (refusal) {
    case NIMBLESHALE_REFUSED_EARLIER:
        /* The clock was set back. Ticks must not fall, so the event is taken to be at the last tick. */
        *tick = store.head[NIMBLESHALE_HEAD_LAST];
        return 1;
    case NIMBLESHALE_REFUSED_ALL_OPEN:
        /* The oldest pass has lost its end, so it ends now, be it at the tick at which it started. */
        refusal = nimbleshale_store_end(&store, *tick, oldest);
        if (refusal != NIMBLESHALE_ACCEPTED) {
            say("end of the oldest pass", refusal);
            return 0;
        }
        printf("pass %lu ended, as the oldest of 64\n", (unsigned long)oldest);
        return 1;
    case NIMBLESHALE_REFUSED_ALL_STARTED:
    case NIMBLESHALE_REFUSED_NO_PAGES:
    case NIMBLESHALE_REFUSED_NO_ROOT:
        /* The store is full, and sound. */
        return open_anew();
    case NIMBLESHALE_REFUSED_HEAD:
    case NIMBLESHALE_REFUSED_SPOILED:
        /* Memory was damaged. The refused call wrote nothing. */
        memory_faults++;
        return open_anew();
    default:
        /* A key, a weight or a tick that cannot be, or no open pass of that number: nothing to mend. */
        return 0;
    }
}

/* The ear hears a pass start. Returns 1 and the pass's number, or 0 where the pass is dropped. */
static int on_start(uint32_t tick, uint32_t key, uint32_t weight, uint32_t *number)
{
    int tries;
    for (tries = 0; tries < TRIES; tries++) {
        uint8_t refusal = nimbleshale_store_start(&store, tick, key, weight, number);
        if (refusal == NIMBLESHALE_ACCEPTED) {
            if (tries > 0)
                printf("recorded at tick %lu as pass %lu\n", (unsigned long)tick, (unsigned long)*number);
            return 1;
        }
        say("start", refusal);
        if (!mend(refusal, &tick))
            break;
    }
    dropped++;
    return 0;
}

/* The ear hears a pass end. */
static void on_end(uint32_t tick, uint32_t number)
{
    int tries;
    for (tries = 0; tries < TRIES; tries++) {
        uint8_t refusal = nimbleshale_store_end(&store, tick, number);
        if (refusal == NIMBLESHALE_ACCEPTED) {
            if (tries > 0)
                printf("pass %lu ended at tick %lu\n", (unsigned long)number, (unsigned long)tick);
            return;
        }
        say("end", refusal);
        /* A pass that is not open was ended as the oldest of 64, or belongs to a store before: nothing is lost. */
        if (refusal == NIMBLESHALE_REFUSED_NOT_OPEN)
            return;
        if (!mend(refusal, &tick))
            break;
    }
    dropped++;
}

/*
 * Over a power cycle. The library keeps nothing, so what the firmware keeps is the whole store: the numbers of the head and the words of the six
 * slices. Addresses are not kept; memory is lent anew, of the same lengths. (Of a table only the pages used matter, of a root list only the roots
 * used: a detector with large tables keeps those alone.)
 *
 * A buffer stands for flash. Numbers go into it byte by byte, so that neither the order of bytes nor the layout of a struct matters. Behind them
 * stands a sum of them all: the library refuses a head or a page that cannot be, but a weight that flash has spoilt looks like any other. A
 * detector writes two such images in turn, so that one of them is whole whenever the power goes.
 */
#define SLICE_WORDS (NIMBLESHALE_TABLE_WORDS(START_PAGES + END_PAGES + TIME_PAGES) + 2 * ROOTS + TIME_ROOTS)
#define IMAGE_BYTES (4 * NIMBLESHALE_HEAD_NUMBERS + 8 * SLICE_WORDS)

static unsigned char flash[IMAGE_BYTES + 4];

/* How far flash was written or read. */
static size_t flash_at;

static void write_number(uint64_t *number, int bytes)
{
    int at;
    for (at = 0; at < bytes; at++)
        flash[flash_at++] = (unsigned char)(*number >> 8 * at & 255);
}

static void read_number(uint64_t *number, int bytes)
{
    int at;
    *number = 0;
    for (at = 0; at < bytes; at++)
        *number |= (uint64_t)flash[flash_at++] << 8 * at;
}

static void each_word(void (*take)(uint64_t *, int), uint64_t *slice, size_t length)
{
    size_t at;
    for (at = 0; at < length; at++)
        take(&slice[at], 8);
}

/* Writes or reads all that is kept, in one order for both. */
static void each_number(void (*take)(uint64_t *, int))
{
    size_t at;
    flash_at = 0;
    for (at = 0; at < NIMBLESHALE_HEAD_NUMBERS; at++) {
        uint64_t wide = store.head[at];
        take(&wide, 4);
        store.head[at] = nimbleshale_narrowed(wide);
    }
    each_word(take, start_table, NIMBLESHALE_TABLE_WORDS(START_PAGES));
    each_word(take, start_roots, ROOTS);
    each_word(take, end_table, NIMBLESHALE_TABLE_WORDS(END_PAGES));
    each_word(take, end_roots, ROOTS);
    each_word(take, time_table, NIMBLESHALE_TABLE_WORDS(TIME_PAGES));
    each_word(take, time_roots, TIME_ROOTS);
}

/* The sum of an image (32-bit FNV-1a). */
static uint64_t sum_of_image(void)
{
    uint32_t sum = 2166136261u;
    size_t at;
    for (at = 0; at < IMAGE_BYTES; at++)
        sum = (sum ^ flash[at]) * 16777619u;
    return sum;
}

static void keep_store(void)
{
    uint64_t sum;
    each_number(write_number);
    sum = sum_of_image();
    write_number(&sum, 4);
}

/* Without power, memory holds anything. */
static void lose_power(void)
{
    memset(&store, 0x5a, sizeof store);
    memset(start_table, 0x5a, sizeof start_table);
    memset(start_roots, 0x5a, sizeof start_roots);
    memset(end_table, 0x5a, sizeof end_table);
    memset(end_roots, 0x5a, sizeof end_roots);
    memset(time_table, 0x5a, sizeof time_table);
    memset(time_roots, 0x5a, sizeof time_roots);
}

/* Memory is lent anew, and the store comes back from flash. Where flash does not hold one, a new store begins. */
static int power_up(void)
{
    uint64_t sum;
    lend_memory(ROOTS);
    each_number(read_number);
    read_number(&sum, 4);
    if (sum == sum_of_image()) {
        printf("store read back from flash\n");
        return 1;
    }
    printf("flash holds no whole store\n");
    memory_faults++;
    return open_store();
}

/*
 * Packets from the radio, each with as many commands as fit, the last of them perhaps in part. What is not taken waits at the front of a buffer,
 * and the next packet is put behind it. With room for twice the buffer and one answer no command ever waits for room, so that what waits is less
 * than a command, and the next packet always has its place.
 */
#define PACKET_BYTES 64u
#define BUFFER_BYTES (PACKET_BYTES + NIMBLESHALE_LONGEST_COMMAND)

static uint8_t waiting[BUFFER_BYTES];
static size_t bytes_waiting;
static uint8_t answers[NIMBLESHALE_ROOM(BUFFER_BYTES)];

static uint64_t number_in(const uint8_t *bytes, int count)
{
    uint64_t number = 0;
    while (count > 0)
        number = number << 8 | bytes[--count];
    return number;
}

/* An answer in words. Returns how many bytes it has. */
static size_t say_answer(uint8_t command, const uint8_t *answer)
{
    if (answer[0] != NIMBLESHALE_ACCEPTED) {
        say("answer", answer[0]);
        return 1;
    }
    switch (command) {
    case NIMBLESHALE_COMMAND_START:
        printf("answer: start, pass %lu\n", (unsigned long)number_in(answer + 1, 4));
        return 5;
    case NIMBLESHALE_COMMAND_QUESTION:
        printf("answer: question, %llu passes, weight %llu, %u pages opened\n", (unsigned long long)number_in(answer + 1, 8),
               (unsigned long long)number_in(answer + 9, 8), (unsigned)answer[17]);
        return NIMBLESHALE_LONGEST_ANSWER;
    case NIMBLESHALE_COMMAND_BAT_TIME:
        printf("answer: bat-time %llu, %u pages opened\n", (unsigned long long)number_in(answer + 1, 8), (unsigned)answer[9]);
        return 10;
    default:
        printf("answer: end\n");
        return 1;
    }
}

/* A detector sends the answers as they are. Here they are put in words, each beside its command. */
static void send_answers(size_t taken, size_t written)
{
    size_t at = 0, from = 0;
    while (at < taken && from < written) {
        uint8_t command = waiting[at];
        from += say_answer(command, answers + from);
        at += command == NIMBLESHALE_COMMAND_QUESTION || command == NIMBLESHALE_COMMAND_BAT_TIME ? NIMBLESHALE_LONGEST_COMMAND : NIMBLESHALE_EVENT_BYTES;
    }
}

/* Runs what waits. A byte that begins no command means that the two sides no longer agree where commands begin: all that waits is dropped, and
 * the other side, which gets a 6, begins anew. The store is as sound as before. */
static void run_waiting(uint8_t ended)
{
    size_t taken = 0, written = 0;
    uint8_t over = nimbleshale_store_commands(&store, waiting, bytes_waiting, ended, answers, sizeof answers, &taken, &written);
    send_answers(taken, written);
    bytes_waiting -= taken;
    memmove(waiting, waiting + taken, bytes_waiting);
    printf("%u bytes taken, %u wait\n", (unsigned)taken, (unsigned)bytes_waiting);
    if (over) {
        printf("the run is over; the next packet begins a new one\n");
        bytes_waiting = 0;
    }
}

/* A packet has come. */
static void on_packet(const uint8_t *packet, size_t length)
{
    if (length > BUFFER_BYTES - bytes_waiting) {
        printf("a packet that is too long is dropped\n");
        return;
    }
    memcpy(waiting + bytes_waiting, packet, length);
    bytes_waiting += length;
    run_waiting(0);
}

/*
 * The dusk queue. While the radio talks, the main loop makes no call; what the ear hears meanwhile is written into a queue, and one burst enters it
 * all when the radio is silent. (Where an interrupt handler writes the queue, a detector has two of them in turn: nobody may write what is lent
 * while the burst runs.)
 *
 * A pass has no number until its start is entered. So the ear names what it follows by a track of its own, and the queue keeps the track of each
 * event beside its bytes. The end of a pass whose start is still queued has to wait for the number: the queue is entered first.
 */
#define TRACKS 16

static uint8_t queue[NIMBLESHALE_BURST_EVENTS * NIMBLESHALE_EVENT_BYTES];
static uint64_t results[NIMBLESHALE_BURST_EVENTS * NIMBLESHALE_RESULT_WORDS];
static unsigned track_of[NIMBLESHALE_BURST_EVENTS];
static size_t events_queued;

/* What the ear follows: nothing that is recorded, a pass whose start is queued, or one that has its number. */
static enum { NO_PASS, QUEUED, NUMBERED } tracks[TRACKS];
static uint32_t track_number[TRACKS];

/* An event that the burst refused is tried by itself, behind those of the burst that came after it, and mended as any other. */
static void try_alone(const uint8_t *event, unsigned track)
{
    uint32_t tick = nimbleshale_narrowed(number_in(event + 1, 4));
    if (event[0] == NIMBLESHALE_COMMAND_START) {
        uint32_t key = nimbleshale_narrowed(number_in(event + 5, 2)), weight = nimbleshale_narrowed(number_in(event + 7, 2));
        tracks[track] = on_start(tick, key, weight, &track_number[track]) ? NUMBERED : NO_PASS;
    } else {
        on_end(tick, nimbleshale_narrowed(number_in(event + 5, 4)));
    }
}

/* What became of one event of a burst. */
static void settle(size_t place)
{
    const uint8_t *event = queue + NIMBLESHALE_EVENT_BYTES * place;
    const unsigned track = track_of[place];
    const uint8_t refusal = (uint8_t)results[NIMBLESHALE_RESULT_WORDS * place];
    const uint64_t number = results[NIMBLESHALE_RESULT_WORDS * place + 1];
    switch (refusal) {
    case NIMBLESHALE_ACCEPTED:
        if (event[0] == NIMBLESHALE_COMMAND_START) {
            track_number[track] = nimbleshale_narrowed(number);
            tracks[track] = NUMBERED;
        }
        return;
    case NIMBLESHALE_REFUSED_COMMAND:
        /* The queue was damaged. Nobody knows what the event was. */
        printf("event %u ", (unsigned)place);
        say("is dropped", refusal);
        tracks[track] = NO_PASS;
        memory_faults++;
        dropped++;
        return;
    default:
        printf("event %u by itself, ", (unsigned)place);
        try_alone(event, track);
    }
}

/* How many events of a burst were refused. */
static unsigned count_refused(void)
{
    unsigned refused = 0;
    size_t place;
    for (place = 0; place < events_queued; place++)
        refused += results[NIMBLESHALE_RESULT_WORDS * place] != NIMBLESHALE_ACCEPTED;
    return refused;
}

/* Enters all that is queued. With a queue and a result list of these lengths a burst is never refused. If it is, no event was tried, and each is tried
 * by itself. */
static void enter_queue(void)
{
    uint8_t refusal = nimbleshale_store_burst(&store, queue, NIMBLESHALE_EVENT_BYTES * events_queued, results, sizeof results / sizeof *results);
    size_t place;
    if (refusal == NIMBLESHALE_ACCEPTED)
        printf("burst of %u events, %u of them refused\n", (unsigned)events_queued, count_refused());
    else
        say("burst", refusal);
    for (place = 0; place < events_queued; place++) {
        if (refusal == NIMBLESHALE_ACCEPTED)
            settle(place);
        else
            try_alone(queue + NIMBLESHALE_EVENT_BYTES * place, track_of[place]);
    }
    events_queued = 0;
}

/* A place for one more event. A queue that is full waits for the radio no longer. */
static uint8_t *queue_event(unsigned track)
{
    if (events_queued == NIMBLESHALE_BURST_EVENTS)
        enter_queue();
    track_of[events_queued] = track;
    return queue + NIMBLESHALE_EVENT_BYTES * events_queued++;
}

static void hear_start(unsigned track, uint32_t tick, uint32_t key, uint32_t weight)
{
    nimbleshale_event_start(queue_event(track), tick, key, weight);
    tracks[track] = QUEUED;
}

static void hear_end(unsigned track, uint32_t tick)
{
    if (tracks[track] == QUEUED)
        enter_queue();
    if (tracks[track] == NUMBERED)
        nimbleshale_event_end(queue_event(track), tick, track_number[track]);
}

/*
 * The register block. A radio chip has a bus to 40 bytes of this processor. It writes the operands and then the command byte, and reads what came of
 * it. Each access interrupts whatever runs here, and on_bus_read or on_bus_write is the handler.
 *
 * Reading, and writing any byte but byte 0, touch the block alone. The handler does both at once, be a call on the store interrupted or not. A write
 * to byte 0 is a call on the store, and the handler cannot know whether it interrupts another one: it keeps the byte, and the main loop makes the
 * write. To the chip this is a command that takes its time. It has cleared the flags, so that done is set when the command has run, and until
 * then it writes nothing else.
 */
static uint8_t block[NIMBLESHALE_BLOCK_BYTES];
static volatile uint8_t command_byte, command_waits;

/* The interrupt line, as it was set last. It is a wire to the chip, whose own handler runs when it goes high. */
static uint8_t line;

static void on_line_high(void);

static void set_line(void)
{
    uint8_t before = line;
    line = nimbleshale_block_line(block);
    if (line && !before)
        on_line_high();
}

static uint8_t on_bus_read(size_t offset)
{
    return nimbleshale_block_read(block, offset);
}

static void on_bus_write(size_t offset, uint8_t value)
{
    if (offset == NIMBLESHALE_BLOCK_COMMAND) {
        command_byte = value;
        command_waits = 1;
        return;
    }
    nimbleshale_store_block_write(&store, block, offset, value);
    set_line();
}

/* The main loop, each time around. A detector holds the bus off from before the write until the line is set: nobody reads a block that is half
 * written. */
static void serve_chip(void)
{
    if (!command_waits)
        return;
    command_waits = 0;
    nimbleshale_store_block_write(&store, block, NIMBLESHALE_BLOCK_COMMAND, command_byte);
    set_line();
}

/* After a reset, for which the bus is held off too, no flag is set and the mask is 0. The store is as it was. */
static void reset_chip(void)
{
    command_waits = 0;
    nimbleshale_block_reset(block);
    set_line();
}

/*
 * The other end of the bus: what the chip's firmware does. It is here so that the example can be run; its calls of on_bus_read and on_bus_write stand
 * for accesses over the bus. It learns that a command is done in one of two ways: it polls the flags, or it sets the mask and waits for the line.
 */
#define ALL_FLAGS (NIMBLESHALE_FLAG_DONE | NIMBLESHALE_FLAG_REFUSED | NIMBLESHALE_FLAG_ALL_OPEN)
#define POLLS 8

/* A command, in its bytes of the stream. The command byte comes last, since it runs the command. */
static void chip_sends(const uint8_t *bytes, size_t length)
{
    size_t at;
    on_bus_write(NIMBLESHALE_BLOCK_FLAGS, ALL_FLAGS);
    for (at = 1; at < length; at++)
        on_bus_write(NIMBLESHALE_BLOCK_OPERANDS + at - 1, bytes[at]);
    on_bus_write(NIMBLESHALE_BLOCK_COMMAND, bytes[0]);
}

/* Reads status and result, which are the answer of the stream, and writes ones to the flags that it has seen: they are cleared, and the line falls. */
static void chip_takes_answer(void)
{
    uint8_t answer[NIMBLESHALE_LONGEST_ANSWER], flags = on_bus_read(NIMBLESHALE_BLOCK_FLAGS);
    size_t at;
    answer[0] = on_bus_read(NIMBLESHALE_BLOCK_STATUS);
    for (at = 0; at < NIMBLESHALE_BLOCK_RESULT_BYTES; at++)
        answer[1 + at] = on_bus_read(NIMBLESHALE_BLOCK_RESULT + at);
    on_bus_write(NIMBLESHALE_BLOCK_FLAGS, flags);
    say_answer(on_bus_read(NIMBLESHALE_BLOCK_COMMAND), answer);
    if (flags & NIMBLESHALE_FLAG_ALL_OPEN)
        printf("64 passes are open\n");
}

/* The first way: flags are read until the command is done. Meanwhile the detector's main loop goes around. */
static void chip_polls(void)
{
    int polls;
    for (polls = 1; polls <= POLLS; polls++) {
        if (on_bus_read(NIMBLESHALE_BLOCK_FLAGS) & NIMBLESHALE_FLAG_DONE) {
            printf("poll %d: done\n", polls);
            chip_takes_answer();
            return;
        }
        printf("poll %d: not done\n", polls);
        serve_chip();
    }
}

/* The second way: the chip's handler for the line, which is high while a flag and its mask bit are both set. */
static void on_line_high(void)
{
    printf("the line is high\n");
    chip_takes_answer();
    printf("the line is %s\n", line ? "still high" : "low again");
}

/* A pass starts each tick, until something has come about. Firmware waits for nothing without end: 64 starts are enough for all that is waited
 * for here, since no more passes can be open together. Returns the tick that comes next. */
static uint32_t starts_until(int (*come_about)(void), const char *what, uint32_t tick, uint32_t first_key)
{
    uint32_t number, heard;
    for (heard = 0; !come_about() && heard < NIMBLESHALE_OPEN_PASSES; heard++)
        on_start(tick++, first_key + heard, 10, &number);
    if (!come_about())
        printf("gave up after %u starts: %s\n", (unsigned)heard, what);
    return tick;
}

static int all_are_open(void)
{
    return store.head[NIMBLESHALE_HEAD_OPEN] >= NIMBLESHALE_OPEN_PASSES;
}

static int fourth_store_is_open(void)
{
    return stores_opened >= 4;
}

static void events(void)
{
    uint32_t number = 0, first = 0;

    printf("\nAn evening\n");
    on_start(100, 4500, 80, &first);
    on_start(130, 2200, 60, &number);
    on_end(160, first);
    on_question(4000, 5000, 100, 200);
    /* A pass is heard at its end tick too, and not at the next one. */
    on_question(0, NIMBLESHALE_KEYS, 160, 170);
    on_question(0, NIMBLESHALE_KEYS, 161, 170);
    on_question(5000, 4000, 100, 200);
    /* Weight 80 at ticks 150 to 160: the first pass, of which the interval has its last 11 ticks. */
    on_bat_time(4000, 5000, 150, 170);

    printf("\nThe clock is set back: what was heard becomes a click at the last tick\n");
    on_start(150, 4600, 70, &number);
    on_end(140, number);
    on_question(4600, 4601, 159, 160);
    on_question(4600, 4601, 160, 161);
    on_question(4600, 4601, 161, 162);

    printf("\nEvents that cannot be\n");
    on_start(200, 30000, 70, &number);
    on_start(200, 4500, 0, &number);
    on_end(210, 77);

    printf("\nA clock of 64 bits that has run past the last tick\n");
    on_start(nimbleshale_narrowed(4294967301u), 4500, 80, &number);
}

/* Pass 1 is still open when the power goes. Its number is good afterwards. */
static void power_cycle(void)
{
    printf("\nThe power goes and comes back\n");
    on_question(0, NIMBLESHALE_KEYS, 100, 200);
    keep_store();
    lose_power();
    if (!power_up())
        return;
    on_question(0, NIMBLESHALE_KEYS, 100, 200);
    on_end(220, 1);
    on_question(2000, 2500, 220, 221);
    on_question(2000, 2500, 221, 222);
}

/* A start at tick 230, key 4500, weight 90; a question for keys 4000 to 5000 and ticks 100 to 300; and an end at tick 240 that comes in two parts. */
static void radio_packets(void)
{
    static const uint8_t first[26] = {1, 230, 0, 0, 0, 0x94, 0x11, 90, 0, 3, 0xa0, 0x0f, 0x88, 0x13, 100, 0, 0, 0, 0x2c, 1, 0, 0, 2, 240, 0, 0};
    static const uint8_t second[5] = {0, 3, 0, 0, 0};
    static const uint8_t unknown[14] = {2, 250, 0, 0, 0, 3, 0, 0, 0, 9, 1, 2, 3, 4};

    printf("\nA radio packet, and the rest of its last command\n");
    on_packet(first, sizeof first);
    on_packet(second, sizeof second);

    printf("\nA packet with a byte that begins no command\n");
    on_packet(unknown, sizeof unknown);

    printf("\nThe radio falls silent in the midst of a command\n");
    on_packet(first, 5);
    run_waiting(1);
}

/* Ten passes, of which one has a weight that cannot be, and one a tick before that of the event before it. */
static void at_dusk(void)
{
    unsigned track;

    printf("\nAt dusk the radio talks: ten starts are queued and then entered in one burst\n");
    for (track = 0; track < 10; track++)
        hear_start(track, track == 6 ? 249 : 250 + track, 4400 + 10 * track, track == 3 ? 0 : 20);
    enter_queue();
    on_question(4400, 4500, 250, 270);

    printf("\nTheir ends, and a pass that starts and ends while the radio talks\n");
    for (track = 0; track < 10; track++)
        hear_end(track, 270 + track);
    hear_start(10, 280, 5100, 30);
    hear_end(10, 285);
    enter_queue();
    on_question(4400, 5200, 278, 290);

    printf("\nA queue of which a byte is damaged\n");
    hear_start(11, 290, 5200, 30);
    hear_start(12, 291, 5300, 30);
    queue[0] ^= 0x40;
    enter_queue();
    hear_end(11, 295);
    hear_end(12, 295);
    enter_queue();
}

/* With 64 passes open: a question, the end of a pass and the starts of two, and a byte that begins no command. */
static void register_block(uint32_t tick)
{
    static const uint8_t question[NIMBLESHALE_LONGEST_COMMAND] = {3, 0, 0, 0x30, 0x75, 0, 0, 0, 0, 0xff, 0xff, 0xff, 0xff};
    static const uint8_t unknown[1] = {9};
    uint8_t start[NIMBLESHALE_EVENT_BYTES], end[NIMBLESHALE_EVENT_BYTES];
    nimbleshale_event_start(start, tick, 5000, 10);
    nimbleshale_event_end(end, tick, nimbleshale_store_pass(&store, 0).number);

    printf("\nA radio chip asks through its register block, and polls\n");
    reset_chip();
    chip_sends(question, sizeof question);
    chip_polls();

    printf("\nIt waits for the line: of every command that is done\n");
    on_bus_write(NIMBLESHALE_BLOCK_MASK, NIMBLESHALE_FLAG_DONE);
    chip_sends(start, sizeof start);
    serve_chip();
    chip_sends(unknown, sizeof unknown);
    serve_chip();
    chip_sends(end, sizeof end);
    serve_chip();

    printf("\nOnly of one that leaves 64 passes open\n");
    on_bus_write(NIMBLESHALE_BLOCK_MASK, NIMBLESHALE_FLAG_ALL_OPEN);
    chip_sends(question, sizeof question);
    serve_chip();
    chip_sends(start, sizeof start);
    serve_chip();
}

static void full_stores(void)
{
    uint32_t number = 0, tick;

    printf("\nForty passes, one after the other: the page table of ends runs full\n");
    for (tick = 300; tick < 700; tick += 10)
        if (on_start(tick, 4000 + tick, 50, &number))
            on_end(tick + 5, number);

    printf("\nPasses that never end\n");
    tick = starts_until(all_are_open, "fewer than 64 passes are open", tick, tick);
    on_start(tick, 5000, 10, &number);
    register_block(tick);

    printf("\nA new store with too short a root list\n");
    lend_memory(2);
    open_store();
    starts_until(fourth_store_is_open, "the root list did not run full", 0, 1000);
}

static void damaged_memory(void)
{
    uint32_t number = 0;

    printf("\nA damaged page\n");
    start_table[1] = 99;
    on_question(0, NIMBLESHALE_KEYS, 0, 1000);
    on_start(2000, 4500, 80, &number);

    printf("\nA damaged head\n");
    store.head[NIMBLESHALE_HEAD_OPEN] = 65;
    on_start(2100, 4500, 80, &number);

    printf("\nA million passes\n");
    store.head[NIMBLESHALE_HEAD_STARTED] = NIMBLESHALE_PASSES;
    on_start(2200, 4500, 80, &number);

    printf("\nDamaged flash\n");
    keep_store();
    flash[100] ^= 1;
    lose_power();
    power_up();
    on_start(2300, 4500, 80, &number);
}

int main(void)
{
    lend_memory(ROOTS);
    if (!open_store())
        return 1;
    events();
    power_cycle();
    radio_packets();
    at_dusk();
    full_stores();
    damaged_memory();
    printf("\n%u stores opened, %u events dropped, %u memory faults\n", stores_opened, dropped, memory_faults);
    return 0;
}
