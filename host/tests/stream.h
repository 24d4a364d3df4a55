/* The command streams of host/vectors, and the command program of document 01 made of single calls. */
#ifndef STREAM_H
#define STREAM_H

#include "lent.h"

/* A line of streams.txt: a whole input, and all that must be written for it. */
struct vector {
    const char *name;
    unsigned char *input;
    size_t length;
    unsigned char *wanted;
    size_t wanted_length;
};

/* The bytes of a word in hexadecimal; "-" is none. */
static inline size_t bytes_of(const char *text, unsigned char *bytes)
{
    size_t count = 0;
    unsigned byte;
    for (; sscanf(text, "%2x", &byte) == 1; text += 2)
        bytes[count++] = (unsigned char)byte;
    return count;
}

/* The vector of a line, which is cut up and must outlive it. */
static inline struct vector vector_of(char *line)
{
    struct vector vector;
    const size_t length = strlen(line);
    const char *in, *out;
    vector.name = strtok(line, " \n");
    in = strtok(NULL, " \n");
    out = strtok(NULL, " \n");
    vector.input = malloc(length);
    vector.wanted = malloc(length);
    if (vector.name == NULL || in == NULL || out == NULL || vector.input == NULL || vector.wanted == NULL)
        exit(2);
    vector.length = bytes_of(in, vector.input);
    vector.wanted_length = bytes_of(out, vector.wanted);
    return vector;
}

static inline void free_vector(struct vector *vector)
{
    free(vector->input);
    free(vector->wanted);
}

/* A stream that is run by single calls. It is stopped where 6 or 7 ends it. */
struct stream {
    struct nimbleshale_store store;
    const unsigned char *input;
    size_t left;
    unsigned char *output;
    size_t written;
    size_t commands;
    int stopped;
};

/* "the program's tables shrink to 10 pages and 10 roots a tree" (document 02, Paper 4) */
static inline void lend_program_store(struct nimbleshale_store *store)
{
    lend_pages(store, 10, 10);
}

static inline uint32_t operand(const unsigned char *bytes, int count)
{
    return count == 0 ? 0 : bytes[0] + 256u * operand(bytes + 1, count - 1);
}

static inline void put_number(struct stream *stream, uint64_t number, int bytes)
{
    for (; bytes > 0; bytes--, number /= 256)
        stream->output[stream->written++] = (unsigned char)(number % 256);
}

/* The bytes of a command, by the first; 1 for a byte that begins none. */
static inline size_t command_length(unsigned char first)
{
    return first == 1 || first == 2 ? 9 : first == 3 || first == 4 ? 13 : 1;
}

/* A command that has come whole: the call, and its answer. */
static inline void make_command(struct stream *stream, int kind, const unsigned char *at)
{
    struct nimbleshale_totals totals = {0, 0, 0};
    struct nimbleshale_time time = {0, 0};
    uint32_t number = 0;
    uint8_t refusal;
    if (kind == 1)
        refusal = nimbleshale_store_start(&stream->store, operand(at, 4), operand(at + 4, 2), operand(at + 6, 2), &number);
    else if (kind == 2)
        refusal = nimbleshale_store_end(&stream->store, operand(at, 4), operand(at + 4, 4));
    else if (kind == 3)
        refusal = nimbleshale_store_question(&stream->store, operand(at, 2), operand(at + 2, 2), operand(at + 4, 4), operand(at + 8, 4), &totals);
    else
        refusal = nimbleshale_store_bat_time(&stream->store, operand(at, 2), operand(at + 2, 2), operand(at + 4, 4), operand(at + 8, 4), &time);
    put_number(stream, refusal, 1);
    if (refusal != 0)
        return;
    if (kind == 1)
        put_number(stream, number, 4);
    if (kind == 3) {
        put_number(stream, totals.count, 8);
        put_number(stream, totals.sum, 8);
        put_number(stream, totals.pages, 1);
    }
    if (kind == 4) {
        put_number(stream, time.total, 8);
        put_number(stream, time.pages, 1);
    }
}

/* One command; 0 where nothing more is read. */
static inline int run_command(struct stream *stream)
{
    const unsigned char *at = stream->input;
    const size_t length = command_length(at[0]);
    stream->commands++;
    if (at[0] < 1 || at[0] > 4) {
        stream->left -= 1;
        put_number(stream, NIMBLESHALE_REFUSED_COMMAND, 1);
        return 0;
    }
    if (stream->left < length) {
        stream->left = 0;
        put_number(stream, NIMBLESHALE_REFUSED_CUT_SHORT, 1);
        return 0;
    }
    stream->input += length;
    stream->left -= length;
    make_command(stream, at[0], at + 1);
    return 1;
}

/* The command program on a whole input. Room for twice the input and one answer is enough. Returns 0 where the store is not opened. */
static inline int run_stream(struct stream *stream, const struct vector *vector)
{
    lend_program_store(&stream->store);
    stream->input = vector->input;
    stream->left = vector->length;
    stream->output = malloc(NIMBLESHALE_ROOM(vector->length));
    if (stream->output == NULL)
        exit(2);
    stream->written = 0;
    stream->commands = 0;
    stream->stopped = 0;
    if (nimbleshale_store_open(&stream->store) != 0)
        return 0;
    while (stream->left > 0 && !stream->stopped)
        stream->stopped = !run_command(stream);
    return 1;
}

static inline void give_back_stream(struct stream *stream)
{
    give_back_store(&stream->store);
    free(stream->output);
}

static inline FILE *opened(const char *name)
{
    FILE *file = fopen(name, "r");
    if (file == NULL) {
        perror(name);
        exit(2);
    }
    return file;
}

#endif
