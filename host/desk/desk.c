/*
 * A detector at a desk: commands as text in, answers as text out. It speaks to the detector (detector.h) in the bytes of document 01's "Commands".
 *
 *     start TICK KEY WEIGHT        a pass starts
 *     end TICK NUMBER              the pass of that number ends
 *     question K1 K2 T1 T2         which passes: keys K1 up to but not K2, ticks T1 up to but not T2
 *     battime K1 K2 T1 T2          their weight times the ticks at which they live there
 *
 * Where the library is linked in, there is a register block too, and the desk is its radio chip:
 *
 *     poke OFFSET VALUE..          writes a byte or several, from an offset on
 *     peek OFFSET                  reads a byte
 *     block                        reads all 40 bytes
 *     reset                        resets the block
 *
 * Empty lines and lines that begin with # are passed over. A line that is no command is said so and sent to nobody.
 */
#include "detector.h"
#include <stdio.h>
#include <stdlib.h>
#include <string.h>

#define LONGEST_LINE 256

/* The words of a line behind its first. */
struct words {
    char *at[LONGEST_LINE];
    size_t count;
};

/* The number in a place, if there is one and it is at most `most`. */
static int take_number(const struct words *words, size_t place, uint32_t most, uint32_t *number)
{
    const char *word = place < words->count ? words->at[place] : "";
    unsigned long long value;
    char *rest;
    if (word[0] < '0' || word[0] > '9')
        return 0;
    value = strtoull(word, &rest, 10);
    if (*rest != '\0' || value > most)
        return 0;
    *number = (uint32_t)value;
    return 1;
}

/* A command, its byte, and how many bytes each operand takes; 0 ends them. */
struct command {
    const char *name;
    uint8_t code;
    int bytes[5];
};

static const struct command commands[] = {
    {"start", NIMBLESHALE_COMMAND_START, {4, 2, 2, 0}},
    {"end", NIMBLESHALE_COMMAND_END, {4, 4, 0}},
    {"question", NIMBLESHALE_COMMAND_QUESTION, {2, 2, 4, 4, 0}},
    {"battime", NIMBLESHALE_COMMAND_BAT_TIME, {2, 2, 4, 4, 0}},
};

static uint64_t number_in(const uint8_t *bytes, int count)
{
    return count == 0 ? 0 : bytes[0] + 256 * number_in(bytes + 1, count - 1);
}

/* Weight is in hundredths and a tick is a hundredth of a second: 10,000 are weight 1 for one second. */
#define WEIGHT_SECOND 10000u

static void say_bat_time(uint64_t total, unsigned pages)
{
    printf("bat-time %llu (weight 1 for %llu.%04u seconds), %u pages opened\n", (unsigned long long)total,
           (unsigned long long)(total / WEIGHT_SECOND), (unsigned)(total % WEIGHT_SECOND), pages);
}

static void say_answer(const struct command *command, const uint8_t *answer)
{
    uint64_t count = number_in(answer + 1, 8);
    if (answer[0] != NIMBLESHALE_ACCEPTED) {
        printf("refused (%u): %s\n", (unsigned)answer[0], nimbleshale_refusal_text(answer[0]));
        return;
    }
    switch (command->code) {
    case NIMBLESHALE_COMMAND_START: printf("pass %lu started\n", (unsigned long)number_in(answer + 1, 4)); break;
    case NIMBLESHALE_COMMAND_END: printf("ended\n"); break;
    case NIMBLESHALE_COMMAND_BAT_TIME: say_bat_time(number_in(answer + 1, 8), answer[9]); break;
    default:
        printf("%llu pass%s, weight sum %llu, %u pages opened\n", (unsigned long long)count, count == 1 ? "" : "es",
               (unsigned long long)number_in(answer + 9, 8), (unsigned)answer[17]);
    }
}

/* Sends a command with its operands, all of them and no more. Returns 0 where the line has others. */
static int run_command(const struct command *command, const struct words *words)
{
    uint8_t bytes[NIMBLESHALE_LONGEST_COMMAND], answer[NIMBLESHALE_LONGEST_ANSWER] = {0};
    size_t length = 1, place = 0;
    bytes[0] = command->code;
    for (; command->bytes[place] != 0; place++) {
        const int operand_bytes = command->bytes[place];
        uint32_t number;
        if (!take_number(words, place, operand_bytes == 2 ? 65535u : 4294967295u, &number))
            return 0;
        nimbleshale_event_number(bytes + length, number, operand_bytes);
        length += (size_t)operand_bytes;
    }
    if (words->count != place)
        return 0;
    answer_command(bytes, length, answer);
    say_answer(command, answer);
    return 1;
}

static const char *line_now(void)
{
    return registers->line() ? "high" : "low";
}

/* The bytes from an offset on, as the radio side reads them. */
static void say_bytes(const char *name, size_t from, size_t count)
{
    char place[32];
    snprintf(place, sizeof place, count == 1 ? "%u" : "%u to %u", (unsigned)from, (unsigned)(from + count - 1));
    printf("  %-9s%-8s", name, place);
    for (size_t offset = from; offset < from + count; offset++)
        printf(" %3u", (unsigned)registers->read(offset));
}

static void say_flags(unsigned flags)
{
    printf("%s%s%s\n", flags & NIMBLESHALE_FLAG_DONE ? "  done" : "", flags & NIMBLESHALE_FLAG_REFUSED ? "  refused" : "",
           flags & NIMBLESHALE_FLAG_ALL_OPEN ? "  64 open" : "");
}

static int show_block(const struct words *words)
{
    const size_t behind = NIMBLESHALE_BLOCK_RESULT + NIMBLESHALE_BLOCK_RESULT_BYTES;
    const uint8_t status = registers->read(NIMBLESHALE_BLOCK_STATUS);
    if (words->count != 0)
        return 0;
    printf("the line is %s\n", line_now());
    say_bytes("command", NIMBLESHALE_BLOCK_COMMAND, 1);
    printf("\n");
    say_bytes("operands", NIMBLESHALE_BLOCK_OPERANDS, NIMBLESHALE_BLOCK_OPERAND_BYTES);
    printf("\n");
    say_bytes("status", NIMBLESHALE_BLOCK_STATUS, 1);
    printf("%s%s\n", status == 0 ? "" : "  ", status == 0 ? "" : nimbleshale_refusal_text(status));
    say_bytes("flags", NIMBLESHALE_BLOCK_FLAGS, 1);
    say_flags(registers->read(NIMBLESHALE_BLOCK_FLAGS));
    say_bytes("mask", NIMBLESHALE_BLOCK_MASK, 1);
    say_flags(registers->read(NIMBLESHALE_BLOCK_MASK));
    say_bytes("result", NIMBLESHALE_BLOCK_RESULT, NIMBLESHALE_BLOCK_RESULT_BYTES);
    printf("\n");
    say_bytes("unused", behind, NIMBLESHALE_BLOCK_BYTES - behind);
    printf("\n");
    return 1;
}

/* The whole line is looked at before anything is written. */
static int poke(const struct words *words)
{
    uint32_t offset, value;
    uint8_t values[LONGEST_LINE];
    if (!take_number(words, 0, 4294967295u, &offset) || words->count < 2)
        return 0;
    for (size_t at = 1; at < words->count; at++) {
        if (!take_number(words, at, 255, &value))
            return 0;
        values[at] = (uint8_t)value;
    }
    for (size_t at = 1; at < words->count; at++)
        registers->write(offset + at - 1, values[at]);
    printf("the line is %s\n", line_now());
    return 1;
}

static int peek(const struct words *words)
{
    uint32_t offset;
    if (!take_number(words, 0, 4294967295u, &offset) || words->count != 1)
        return 0;
    printf("%u\n", (unsigned)registers->read(offset));
    return 1;
}

static int reset(const struct words *words)
{
    if (words->count != 0)
        return 0;
    registers->reset();
    printf("the line is %s\n", line_now());
    return 1;
}

/* What is done with the register block. Each returns 0 where the words are not what it needs. */
static const struct {
    const char *name;
    int (*access)(const struct words *words);
} accesses[] = {{"block", show_block}, {"poke", poke}, {"peek", peek}, {"reset", reset}};

/* An access of that name, if there is one. */
static int access_block(const char *name, const struct words *words)
{
    for (size_t at = 0; at < sizeof accesses / sizeof *accesses; at++) {
        if (strcmp(name, accesses[at].name) != 0)
            continue;
        if (registers != NULL)
            return accesses[at].access(words);
        printf("the command program has no register block\n");
        return 1;
    }
    return 0;
}

static void obey(char *line)
{
    static const char blanks[] = " \t\r\n";
    struct words words = {{NULL}, 0};
    char copy[LONGEST_LINE], *word, *next;
    snprintf(copy, sizeof copy, "%s", line);
    word = strtok(copy, blanks);
    if (word == NULL || word[0] == '#')
        return;
    while ((next = strtok(NULL, blanks)) != NULL)
        words.at[words.count++] = next;
    line[strcspn(line, "\r\n")] = '\0';
    printf("%s: ", line);
    for (size_t at = 0; at < sizeof commands / sizeof *commands; at++)
        if (strcmp(word, commands[at].name) == 0 && run_command(&commands[at], &words))
            return;
    if (access_block(word, &words))
        return;
    printf("no such command: start TICK KEY WEIGHT, end TICK NUMBER, question K1 K2 T1 T2, battime K1 K2 T1 T2; keys and weights up to 65535");
    if (registers != NULL)
        printf("; poke OFFSET VALUE.., values up to 255, peek OFFSET, block, reset");
    printf("\n");
}

int main(int count, char **arguments)
{
    char line[LONGEST_LINE];
    if (!begin_detector(count - 1, arguments + 1)) {
        fprintf(stderr, registers == NULL ? "use: desk COMMAND_PROGRAM < COMMANDS\n" : "use: desk < COMMANDS\n");
        return 2;
    }
    while (fgets(line, sizeof line, stdin) != NULL) {
        obey(line);
        fflush(stdout);
    }
    return end_detector();
}
