/* The register block: every offset and every value, every command byte, and any 40 bytes, against a plain model. Each command that comes through a
 * block is also run by nimbleshale_commands on a second store, from the same bytes: the answer must be the same, and both stores to the word.
 *
 * A block ends right before memory that may not be touched, and so does each slice. A write that runs no command is also made on a store that may
 * only be read: an interrupt handler may make it while a call on that store runs, so it must write nothing of it, not even what it held. */
#define _DEFAULT_SOURCE
#include "cases.h"

#define BYTES NIMBLESHALE_BLOCK_BYTES
#define PAGES 10

static unsigned long compared, differed, accesses, commands, accepted, refused, unknown;

/* Commands by the flags that they left. */
static unsigned long by_flags[8];

static void judge(int same, const char *what, size_t offset, unsigned value)
{
    compared++;
    if (same)
        return;
    differed++;
    if (differed <= 10)
        printf("differs: %s: offset %llu, value %u\n", what, (unsigned long long)offset, value);
}

/* A small random generator (splitmix64), so that every run is the same. */
static uint64_t state;

static uint64_t any_word(void)
{
    uint64_t x = state += 0x9e3779b97f4a7c15u;
    x = (x ^ x >> 30) * 0xbf58476d1ce4e5b9u;
    x = (x ^ x >> 27) * 0x94d049bb133111ebu;
    return x ^ x >> 31;
}

static uint32_t below(uint32_t limit)
{
    return (uint32_t)((any_word() >> 32) % limit);
}

static uint8_t any_byte(void)
{
    return (uint8_t)(any_word() >> 56);
}

/* The model: 40 bytes, and what document 02 says of them. */

static uint8_t model_read(const uint8_t *bytes, size_t offset)
{
    if (offset > 32)
        return 0;
    return offset == 14 ? bytes[14] & 7 : bytes[offset];
}

static uint8_t model_line(const uint8_t *bytes)
{
    for (unsigned bit = 1; bit <= 4; bit *= 2)
        if ((bytes[14] & bit) != 0 && (bytes[15] & bit) != 0)
            return 1;
    return 0;
}

/* A write to any offset but 0. */
static void model_write(uint8_t *bytes, size_t offset, uint8_t value)
{
    if ((offset >= 1 && offset <= 12) || offset == 15)
        bytes[offset] = value;
    if (offset == 14)
        bytes[14] = (uint8_t)(bytes[14] & 7 & (255 - value));
}

/* A command of which the answer is known, and how many passes are open after it. */
static void model_command(uint8_t *bytes, uint8_t value, const uint8_t *answer, size_t length, uint32_t open)
{
    bytes[0] = value;
    bytes[13] = answer[0];
    bytes[14] = (uint8_t)(1 + (answer[0] != 0 ? 2 : 0) + (open == 64 ? 4 : 0));
    for (size_t at = 0; at < 17; at++)
        bytes[16 + at] = at + 1 < length ? answer[at + 1] : 0;
}

/* A block that is lent, and its model. */
static uint8_t *block, model[BYTES];

static void fill_block(const uint8_t *bytes)
{
    memcpy(block, bytes, BYTES);
    memcpy(model, bytes, BYTES);
}

/* Bytes that differ from one another, of any content. */
static void spoil_block(void)
{
    uint8_t bytes[BYTES];
    for (size_t at = 0; at < BYTES; at++)
        bytes[at] = any_byte();
    fill_block(bytes);
}

static int block_is_model(void)
{
    return memcmp(block, model, BYTES) == 0 && nimbleshale_block_line(block) == model_line(model);
}

static void write_block(struct tried *t, size_t offset, uint8_t value)
{
    struct nimbleshale_store *s = &t->store;
    nimbleshale_block_write(block, offset, value, LENT);
    accesses++;
}

/* A write that runs no command. */
static void write_register(struct tried *tried, size_t offset, uint8_t value, const char *what)
{
    write_block(tried, offset, value);
    model_write(model, offset, value);
    judge(block_is_model(), what, offset, value);
}

/* How many passes are open, and the number of the one in a place. */
static uint32_t count_open(const struct tried *tried)
{
    return tried->head[NIMBLESHALE_HEAD_OPEN];
}

static uint32_t open_number(const struct tried *tried, uint32_t place)
{
    return tried->head[NIMBLESHALE_HEAD_PASSES + 4 * place];
}

/* A store just opened, with its head in a slice of its own. */
static void open_tried(struct tried *t, size_t pages)
{
    struct nimbleshale_store *s = &t->store;
    lend_pages(s, pages, pages);
    t->head = lend(HEAD_BYTES);
    judge(nimbleshale_open(LENT) == 0, "opening", 0, 0);
}

/* Two stores that are always alike: the commands of one come through the block, those of the other in the stream. */
struct pair {
    struct tried through, stream;
};

static void open_pair(struct pair *pair, size_t pages)
{
    open_tried(&pair->through, pages);
    open_tried(&pair->stream, pages);
}

static void end_pair(struct pair *pair)
{
    end_case(&pair->through);
    end_case(&pair->stream);
}

/* The answer of the stream to a command of these 13 bytes, of which it takes as many as its first byte says. Returns how many bytes it has. */
static size_t answer_in_stream(struct tried *t, const uint8_t *bytes, uint8_t *answer)
{
    struct nimbleshale_store *s = &t->store;
    const size_t length = bytes[0] == 1 || bytes[0] == 2 ? 9 : bytes[0] == 3 || bytes[0] == 4 ? 13 : 1;
    size_t taken = 0, written = 0;
    uint8_t over = nimbleshale_commands(LENT, bytes, length, 0, answer, NIMBLESHALE_LONGEST_ANSWER, &taken, &written);
    judge(taken == length && written >= 1 && over == (answer[0] == 6), "the stream's own answer", 0, bytes[0]);
    return written;
}

/* Writes a command byte, and the same command in the stream of the other store. Status, flags, result and all other bytes of the block, and both
 * stores, must be as they should. Returns the status. */
static uint8_t run_command(struct pair *pair, uint8_t value, const char *what)
{
    uint8_t bytes[NIMBLESHALE_LONGEST_COMMAND], answer[NIMBLESHALE_LONGEST_ANSWER];
    const uint64_t before = digest_tried(&pair->through);
    uint64_t after;
    size_t length;
    memcpy(bytes, model, sizeof bytes);
    bytes[0] = value;
    length = answer_in_stream(&pair->stream, bytes, answer);
    write_block(&pair->through, 0, value);
    model_command(model, value, answer, length, count_open(&pair->stream));
    after = digest_tried(&pair->through);
    judge(block_is_model(), what, 0, value);
    judge(after == digest_tried(&pair->stream), what, 0, value);
    judge((answer[0] == 0 && value < 3) || after == before, "a store that may not change", 0, value);
    commands++;
    accepted += answer[0] == 0;
    refused += answer[0] != 0 && answer[0] != 6;
    unknown += answer[0] == 6;
    by_flags[block[14] & 7]++;
    return block[13];
}

/* Operands, a byte at a time. */
static void write_operands(struct pair *pair, const uint8_t *operands, size_t count)
{
    for (size_t at = 0; at < count; at++)
        write_register(&pair->through, 1 + at, operands[at], "an operand");
}

/* The operands of a question or a bat-time. */
static void put_question(uint8_t *operands, const struct asked *asked)
{
    nimbleshale_event_number(operands, asked->k1, 2);
    nimbleshale_event_number(operands + 2, asked->k2, 2);
    nimbleshale_event_number(operands + 4, asked->t1, 4);
    nimbleshale_event_number(operands + 8, asked->t2, 4);
}

static uint8_t run_start(struct pair *pair, uint32_t tick, uint32_t key, uint32_t weight)
{
    uint8_t event[NIMBLESHALE_EVENT_BYTES];
    nimbleshale_event_start(event, tick, key, weight);
    write_operands(pair, event + 1, 8);
    return run_command(pair, NIMBLESHALE_COMMAND_START, "a start");
}

static uint8_t run_end(struct pair *pair, uint32_t tick, uint32_t number)
{
    uint8_t event[NIMBLESHALE_EVENT_BYTES];
    nimbleshale_event_end(event, tick, number);
    write_operands(pair, event + 1, 8);
    return run_command(pair, NIMBLESHALE_COMMAND_END, "an end");
}

static void write_asked(struct pair *pair, uint32_t k1, uint32_t k2, uint32_t t1, uint32_t t2)
{
    const struct asked asked = {k1, k2, t1, t2};
    uint8_t operands[NIMBLESHALE_BLOCK_OPERAND_BYTES];
    put_question(operands, &asked);
    write_operands(pair, operands, sizeof operands);
}

static uint8_t run_question(struct pair *pair, uint32_t k1, uint32_t k2, uint32_t t1, uint32_t t2)
{
    write_asked(pair, k1, k2, t1, t2);
    return run_command(pair, NIMBLESHALE_COMMAND_QUESTION, "a question");
}

static uint8_t run_bat_time(struct pair *pair, uint32_t k1, uint32_t k2, uint32_t t1, uint32_t t2)
{
    write_asked(pair, k1, k2, t1, t2);
    return run_command(pair, NIMBLESHALE_COMMAND_BAT_TIME, "a bat-time");
}

/* What a command left: its status and its flags. */
static void expect(uint8_t status, uint8_t wanted_status, unsigned wanted_flags, const char *what)
{
    judge(status == wanted_status, what, 13, wanted_status);
    judge(nimbleshale_block_read(block, 13) == wanted_status, what, 13, wanted_status);
    judge(nimbleshale_block_read(block, 14) == wanted_flags, what, 14, wanted_flags);
}

/* Offsets: all up to 300; around the powers of two above, where one that is cut short would name a register; and the highest there are, where one
 * that is negative or taken modulo 40 would. */
#define FIRST_OFFSETS 301
#define MOST_OFFSETS 1000

static size_t offsets[MOST_OFFSETS], offset_count;

static void put_offsets(void)
{
    static const size_t registers[8] = {0, 1, 12, 13, 14, 15, 16, 32};
    for (size_t at = 0; at < FIRST_OFFSETS; at++)
        offsets[offset_count++] = at;
    for (unsigned bit = 9; bit < 8 * sizeof(size_t); bit++)
        for (size_t at = 0; at < 8; at++)
            offsets[offset_count++] = ((size_t)1 << bit) + registers[at];
    for (size_t at = 0; at < BYTES; at++)
        offsets[offset_count++] = SIZE_MAX - at;
}

/* Every byte value is read at every offset; no two bytes of the block are alike. */
static void try_reads(void)
{
    for (unsigned value = 0; value < 256; value++) {
        for (unsigned at = 0; at < BYTES; at++)
            model[at] = (uint8_t)(value + 5 * at);
        fill_block(model);
        for (size_t at = 0; at < offset_count; at++) {
            judge(nimbleshale_block_read(block, offsets[at]) == model_read(model, offsets[at]), "a read", offsets[at], value);
            accesses++;
        }
        judge(block_is_model(), "a block that was read", 0, value);
    }
}

/* Every byte 14 with every mask, and beside them anything. */
static void try_lines(void)
{
    for (unsigned flags = 0; flags < 256; flags++) {
        spoil_block();
        for (unsigned mask = 0; mask < 256; mask++) {
            block[14] = model[14] = (uint8_t)flags;
            block[15] = model[15] = (uint8_t)mask;
            judge(nimbleshale_block_line(block) == model_line(model), "the line", flags, mask);
            accesses++;
        }
        judge(block_is_model(), "a block whose line was asked for", 14, flags);
    }
}

/* All that a store has may only be read, or may be written again. The store itself is lent, too. */
static void protect(struct tried *tried, int protection)
{
    struct nimbleshale_store *s = &tried->store;
    void *const slices[8] = {s->start_table, s->start_roots, s->end_table, s->end_roots, s->time_table, s->time_roots, tried->head, tried};
    const size_t bytes[8] = {8 * s->start_table_length, 8 * s->start_roots_length, 8 * s->end_table_length, 8 * s->end_roots_length,
                             8 * s->time_table_length, 8 * s->time_roots_length, HEAD_BYTES, sizeof *tried};
    for (size_t at = 0; at < 8; at++)
        if (mprotect((unsigned char *)slices[at] + bytes[at] - lent_room(bytes[at]), lent_room(bytes[at]), protection) != 0) {
            perror("protect");
            exit(2);
        }
}

/* Every value is written at every offset but 0, on a store that may only be read. */
static void try_writes(void)
{
    struct tried *tried = lend(sizeof *tried);
    open_tried(tried, 1);
    protect(tried, PROT_READ);
    for (size_t at = 0; at < offset_count; at++) {
        if (offsets[at] == 0)
            continue;
        for (unsigned value = 0; value < 256; value++) {
            if (value % 64 == 0)
                spoil_block();
            write_register(tried, offsets[at], (uint8_t)value, "a write");
            judge(nimbleshale_block_read(block, offsets[at]) == model_read(model, offsets[at]), "what reads after a write", offsets[at], value);
        }
    }
    /* Every byte 14, of which every set of bits is cleared. */
    for (unsigned flags = 0; flags < 256; flags++)
        for (unsigned value = 0; value < 256; value++) {
            block[14] = model[14] = (uint8_t)flags;
            write_register(tried, 14, (uint8_t)value, "a clear");
        }
    protect(tried, PROT_READ | PROT_WRITE);
    end_case(tried);
    give_back(tried, sizeof *tried);
}

/* Any block is cleared by a reset, whatever the store is: it is not handed over, and stays. */
static void try_resets(void)
{
    static const uint8_t zeros[BYTES];
    struct pair pair;
    open_pair(&pair, 1);
    for (unsigned turn = 0; turn < 1000; turn++) {
        spoil_block();
        nimbleshale_block_reset(block);
        accesses++;
        memcpy(model, zeros, BYTES);
        judge(block_is_model() && nimbleshale_block_line(block) == 0, "a reset", 0, turn);
        /* Passes go on where they were, and are open as before. */
        if (turn < 64)
            expect(run_start(&pair, 10, 4500, 100), 0, turn == 63 ? 5 : 1, "a start after a reset");
    }
    judge(count_open(&pair.through) == 64, "the passes that are open after resets", 0, 64);
    end_pair(&pair);
}

/* Every first byte, on operands that are good for a start: 1 starts a pass, 2 ends none, 3 and 4 ask for a band that cannot be, and any other gets 6.
 * After each the block goes on. */
static void try_command_bytes(void)
{
    struct pair pair;
    open_pair(&pair, PAGES);
    for (unsigned value = 0; value < 256; value++) {
        uint8_t status;
        spoil_block();
        run_start(&pair, 70000, 4500, 100);
        status = run_command(&pair, (uint8_t)value, "a command byte");
        expect(status, value == 1 ? 0 : value == 2 ? 22 : value == 3 || value == 4 ? 2 : 6, value == 1 ? 1 : 3, "a command byte");
        judge(block[0] == value, "the command reads as written", 0, value);
        expect(run_question(&pair, 0, 30000, 0, 4294967295u), 0, 1, "a question behind it");
        expect(run_bat_time(&pair, 0, 30000, 0, 4294967295u), 0, 1, "a bat-time behind it");
        while (count_open(&pair.through) > 0)
            run_end(&pair, 70000, open_number(&pair.through, 0));
    }
    end_pair(&pair);
}

/* Commands of every kind and outcome, each from every content of the flags, with status and result full of ones. */
static void try_flags_anew(void)
{
    struct pair pair;
    open_pair(&pair, PAGES);
    for (unsigned flags = 0; flags < 256; flags++) {
        for (unsigned command = 0; command < 10; command++) {
            const uint32_t number = pair.through.head[NIMBLESHALE_HEAD_STARTED];
            uint8_t bytes[BYTES];
            memset(bytes, 0xff, BYTES);
            bytes[14] = (uint8_t)flags;
            bytes[15] = any_byte();
            fill_block(bytes);
            switch (command) {
            case 0: expect(run_start(&pair, 5, 30000, 100), 1, 3, "a start that is refused"); break;
            case 1: expect(run_start(&pair, 5, 4500, 100), 0, 1, "a start"); break;
            case 2: expect(run_question(&pair, 0, 30000, 0, 10), 0, 1, "a question"); break;
            case 3: expect(run_end(&pair, 5, number), 22, 3, "an end that is refused"); break;
            case 4: expect(run_question(&pair, 0, 30001, 0, 10), 1, 3, "a question that is refused"); break;
            case 5: expect(run_bat_time(&pair, 0, 30000, 0, 10), 0, 1, "a bat-time"); break;
            case 6: expect(run_bat_time(&pair, 0, 30000, 10, 10), 5, 3, "a bat-time that is refused"); break;
            case 7: expect(run_end(&pair, 5, number - 1), 0, 1, "an end"); break;
            case 8: expect(run_command(&pair, 0, "an unknown command"), 6, 3, "an unknown command"); break;
            default: expect(run_command(&pair, 255, "an unknown command"), 6, 3, "an unknown command");
            }
            judge(nimbleshale_block_read(block, 15) == bytes[15], "the mask stays", 15, bytes[15]);
        }
    }
    end_pair(&pair);
}

/* The third flag is judged after the command: at 63 and 64 open, and where a head that doesn't fit says another number. */
static void try_all_open(void)
{
    static const struct {
        uint32_t open;
        unsigned flags;
    } heads[] = {{65, 3}, {64, 7}, {63, 3}, {0, 3}, {64 + 256, 3}, {64 + 65536, 3}, {128, 3}, {4294967295u, 3}};
    struct pair pair;
    uint32_t number;
    open_pair(&pair, PAGES);
    nimbleshale_block_reset(block);
    memset(model, 0, BYTES);
    for (number = 0; number < 63; number++)
        expect(run_start(&pair, 10, 4500, 100), 0, 1, "a start, up to 63 open");
    expect(run_question(&pair, 0, 30000, 0, 11), 0, 1, "a question with 63 open");
    expect(run_start(&pair, 10, 4500, 100), 0, 5, "the start of the 64th");
    expect(run_start(&pair, 10, 4500, 100), 24, 7, "a start with 64 open");
    expect(run_question(&pair, 0, 30000, 0, 11), 0, 5, "a question with 64 open");
    expect(run_bat_time(&pair, 0, 30000, 0, 11), 0, 5, "a bat-time with 64 open");
    expect(run_question(&pair, 5, 5, 0, 11), 2, 7, "a refused question with 64 open");
    expect(run_bat_time(&pair, 5, 5, 0, 11), 2, 7, "a refused bat-time with 64 open");
    expect(run_end(&pair, 11, 99), 22, 7, "a refused end with 64 open");
    expect(run_command(&pair, 9, "an unknown command with 64 open"), 6, 7, "an unknown command with 64 open");
    expect(run_end(&pair, 11, 17), 0, 1, "an end with 64 open");
    expect(run_end(&pair, 11, 17), 22, 3, "a refused end with 63 open");
    expect(run_start(&pair, 11, 4500, 100), 0, 5, "a start with 63 open");
    for (size_t at = 0; at < sizeof heads / sizeof *heads; at++) {
        pair.through.head[NIMBLESHALE_HEAD_OPEN] = pair.stream.head[NIMBLESHALE_HEAD_OPEN] = heads[at].open;
        pair.through.head[NIMBLESHALE_HEAD_PASSES + 1] = pair.stream.head[NIMBLESHALE_HEAD_PASSES + 1] = 30000;
        pair.through.head[NIMBLESHALE_HEAD_TIME_ROOTS] = pair.stream.head[NIMBLESHALE_HEAD_TIME_ROOTS] = 0;
        expect(run_question(&pair, 0, 30000, 0, 11), 20, heads[at].flags, "a question of a head that doesn't fit");
        expect(run_bat_time(&pair, 0, 30000, 0, 11), 20, heads[at].flags, "a bat-time of a head that doesn't fit");
        expect(run_start(&pair, 11, 4500, 100), 20, heads[at].flags, "a start of a head that doesn't fit");
        expect(run_end(&pair, 11, 3), 20, heads[at].flags, "an end of a head that doesn't fit");
        expect(run_command(&pair, 5, "an unknown command"), 6, heads[at].flags, "an unknown command to a head that doesn't fit");
    }
    end_pair(&pair);
}

/* A question or a bat-time whose answer has no zero byte: the only row of its tree is given such a value. */
static void ask_for_ones(struct pair *pair, int of_time)
{
    for (int of_stream = 0; of_stream < 2; of_stream++) {
        struct nimbleshale_store *store = &(of_stream ? &pair->stream : &pair->through)->store;
        uint64_t *table = of_time ? store->time_table : store->start_table;
        table[6] = of_time ? 0 : 0x0102030405060708u;
        table[7] = 0xf1f2f3f4f5f6f7f8u;
    }
    expect((of_time ? run_bat_time : run_question)(pair, 0, 30000, 0, 5), 0, 1, "a question or a bat-time for ones");
    for (size_t at = 16; at < (of_time ? 25 : 33); at++)
        judge(nimbleshale_block_read(block, at) != 0, "a byte of a long result", at, (unsigned)of_time);
}

/* After such an answer, what each shorter one leaves of it: nothing. The other of the two has an answer too: zeros and one page. */
static void try_zero_fill(int of_time)
{
    struct pair pair;
    for (unsigned command = 0; command < 8; command++) {
        unsigned left = 0;
        open_pair(&pair, 1);
        if (command == 1)
            run_start(&pair, 0, 0, 1);
        ask_for_ones(&pair, of_time);
        switch (command) {
        case 0: expect(run_start(&pair, 0x01020304, 0, 1), 0, 1, "a start after a long answer"); break;
        case 1: expect(run_end(&pair, 2, 0), 0, 1, "an end after a long answer"); break;
        case 2: expect(run_start(&pair, 2, 0, 0), 3, 3, "a refused start after a long answer"); break;
        case 3: expect(run_end(&pair, 2, 0), 22, 3, "a refused end after a long answer"); break;
        case 4: expect(run_question(&pair, 0, 30000, 5, 5), 5, 3, "a refused question after a long answer"); break;
        case 5: expect(run_bat_time(&pair, 0, 30000, 5, 5), 5, 3, "a refused bat-time after a long answer"); break;
        case 6: expect((of_time ? run_question : run_bat_time)(&pair, 0, 30000, 0, 5), 0, 1, "the other after a long answer"); break;
        default: expect(run_command(&pair, 200, "an unknown command"), 6, 3, "an unknown command after a long answer");
        }
        /* The number of the first pass is 0, too. */
        for (size_t at = 16; at < 33; at++)
            left += nimbleshale_block_read(block, at);
        judge(left == (command == 6 ? 1 : 0), "zero filled", 16, command);
        judge(command != 6 || nimbleshale_block_read(block, of_time ? 32 : 24) == 1, "the pages of the other", 16, command);
        end_pair(&pair);
    }
}

/* A command that is mostly accepted, by what the store holds; its operands are put. */
static uint8_t draw_command(const struct tried *tried, uint8_t *operands)
{
    const uint32_t tick = tried->head[NIMBLESHALE_HEAD_LAST] + below(3);
    const uint32_t open = count_open(tried) == 0 ? 0 : open_number(tried, below(count_open(tried)));
    const struct asked asked = {below(20000), 10000 + below(20001), below(tick + 1), below(tick + 2)};
    uint8_t event[NIMBLESHALE_EVENT_BYTES];
    memset(operands, 0, NIMBLESHALE_BLOCK_OPERAND_BYTES);
    switch (below(17)) {
    case 0: put_question(operands, &asked); return NIMBLESHALE_COMMAND_QUESTION;
    case 1: put_question(operands, &asked); return NIMBLESHALE_COMMAND_BAT_TIME;
    case 2: put_question(operands, &asked); return any_byte();
    case 3: case 4: case 5: case 6: case 7: case 8:
        nimbleshale_event_end(event, tick, below(16) == 0 ? open + 65536 : open);
        break;
    default:
        nimbleshale_event_start(event, tick, below(40) == 0 ? 30000 : 37 * below(800), below(40) == 0 ? 0 : 1 + below(10000));
    }
    memcpy(operands, event + 1, NIMBLESHALE_EVENT_BYTES - 1);
    return event[0];
}

/* Stores that grow until they are full, by commands through a block: each leaves the store that the stream leaves. Between them the block is read
 * and written in other ways, and sometimes spoiled. */
static void try_grown(size_t pages, unsigned turns)
{
    struct pair pair;
    open_pair(&pair, pages);
    for (unsigned turn = 0; turn < turns; turn++) {
        uint8_t operands[NIMBLESHALE_BLOCK_OPERAND_BYTES], value;
        if (below(8) == 0)
            spoil_block();
        value = draw_command(&pair.through, operands);
        write_operands(&pair, operands, sizeof operands);
        run_command(&pair, value, "a command of a grown store");
        for (unsigned more = below(4); more > 0; more--) {
            const size_t offset = 1 + below(60);
            write_register(&pair.through, offset, any_byte(), "a write to a grown store's block");
            judge(nimbleshale_block_read(block, offset) == model_read(model, offset), "a read of a grown store's block", offset, turn);
        }
    }
    judge(pair.through.head[NIMBLESHALE_HEAD_TIME_PAGES] > pages / 2, "a store that grows", pages, turns);
    end_pair(&pair);
}

/* Any 40 bytes and any access, on a small store. What a command does with such operands, the stream does too. */
static void try_spoiled(void)
{
    struct pair pair;
    open_pair(&pair, PAGES);
    for (unsigned turn = 0; turn < 20000; turn++) {
        const size_t offset = below(4) == 0 ? offsets[below((uint32_t)offset_count)] : below(44);
        if (below(4) == 0)
            spoil_block();
        if (offset == 0)
            run_command(&pair, (uint8_t)below(6), "a command of spoiled bytes");
        else
            write_register(&pair.through, offset, any_byte(), "a write to spoiled bytes");
    }
    end_pair(&pair);
}

/* Every case of a start, an end, a question and a bat-time (tests/cases.h): the status is the first refusal, and a refused command leaves everything
 * as it was. */
static void try_case(enum call call, unsigned conditions, enum way way)
{
    const struct arguments a = arguments_of(call, conditions, way);
    const struct asked asked = asked_of(call, conditions, way);
    const uint8_t wanted = first_refusal(call, conditions), value = (uint8_t)(call == START ? 1 : call == END ? 2 : call == QUESTION ? 3 : 4);
    const int writes = call == START || call == END;
    uint8_t bytes[NIMBLESHALE_LONGEST_COMMAND] = {0};
    struct tried tried;
    uint64_t before;
    uint32_t open;
    begin(&tried, call, conditions, way);
    if (call == START)
        nimbleshale_event_start(bytes, a.tick, a.key, a.weight);
    if (call == END)
        nimbleshale_event_end(bytes, a.tick, a.number);
    if (!writes)
        put_question(bytes + 1, &asked);
    for (size_t at = 1; at < sizeof bytes; at++)
        write_register(&tried, at, bytes[at], "an operand of a case");
    before = digest_tried(&tried);
    open = count_open(&tried);
    if (wanted == 0 && writes)
        open += call == START ? 1u : 4294967295u;
    write_block(&tried, 0, value);
    commands++;
    judge(block[13] == wanted, "the status of a case", way, conditions);
    judge(block[14] == 1 + (wanted != 0 ? 2 : 0) + (open == 64 ? 4 : 0), "the flags of a case", way, conditions);
    judge((wanted == 0 && writes) || digest_tried(&tried) == before, "what a refused case leaves", way, conditions);
    if (wanted != 0)
        model_command(model, value, &wanted, 1, open);
    else
        memcpy(model, block, BYTES);
    judge(block_is_model(), "the block of a case", way, conditions);
    end_case(&tried);
}

int main(void)
{
    static const enum call calls[4] = {START, END, QUESTION, BAT_TIME};
    /* What was found shall be seen even if a call crashes. */
    setvbuf(stdout, NULL, _IOLBF, 0);
    block = lend(BYTES);
    put_offsets();
    try_reads();
    try_lines();
    try_writes();
    try_resets();
    try_command_bytes();
    try_flags_anew();
    try_all_open();
    try_zero_fill(0);
    try_zero_fill(1);
    try_grown(PAGES, 4000);
    try_grown(60, 4000);
    try_spoiled();
    for (int call = 0; call < 4; call++)
        for (unsigned conditions = 0; conditions < sets_of(calls[call]); conditions++)
            for (int way = 0; way < WAYS; way++)
                try_case(calls[call], conditions, (enum way)way);
    give_back(block, BYTES);
    printf("blocks: %lu accesses at %lu offsets, %lu commands; beside the stream %lu accepted, %lu refused, %lu unknown, which left flags 1, 3, 5 and 7 "
           "%lu, %lu, %lu and %lu times: %lu compared, %lu differed\n", accesses, (unsigned long)offset_count, commands, accepted, refused, unknown,
           by_flags[1], by_flags[3], by_flags[5], by_flags[7], compared, differed);
    return differed != 0 || accepted == 0 || by_flags[1] == 0 || by_flags[3] == 0 || by_flags[5] == 0 || by_flags[7] == 0;
}
