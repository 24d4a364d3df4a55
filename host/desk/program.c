/* A command program as the detector: it is started, and spoken to through pipes. It has no register block. */
#include "detector.h"
#include <stdio.h>
#include <stdlib.h>
#include <sys/types.h>
#include <sys/wait.h>
#include <unistd.h>

const struct registers *const registers = NULL;

/* The command program's standard input and output. */
static FILE *to_program, *from_program;

int begin_detector(int count, char **arguments)
{
    int to[2], from[2];
    pid_t child;
    if (count != 1)
        return 0;
    if (pipe(to) != 0 || pipe(from) != 0 || (child = fork()) < 0) {
        perror("desk");
        exit(2);
    }
    if (child == 0) {
        dup2(to[0], 0);
        dup2(from[1], 1);
        close(to[0]), close(to[1]), close(from[0]), close(from[1]);
        execl(arguments[0], arguments[0], (char *)NULL);
        perror(arguments[0]);
        _exit(127);
    }
    close(to[0]), close(from[1]);
    to_program = fdopen(to[1], "wb");
    from_program = fdopen(from[0], "rb");
    return 1;
}

static void hear(uint8_t *bytes, size_t count)
{
    if (fread(bytes, 1, count, from_program) == count)
        return;
    fprintf(stderr, "desk: the command program ended\n");
    exit(2);
}

void answer_command(const uint8_t *command, size_t length, uint8_t answer[NIMBLESHALE_LONGEST_ANSWER])
{
    fwrite(command, 1, length, to_program);
    fflush(to_program);
    hear(answer, 1);
    if (answer[0] != NIMBLESHALE_ACCEPTED)
        return;
    if (command[0] == NIMBLESHALE_COMMAND_START)
        hear(answer + 1, 4);
    if (command[0] == NIMBLESHALE_COMMAND_QUESTION)
        hear(answer + 1, NIMBLESHALE_LONGEST_ANSWER - 1);
    if (command[0] == NIMBLESHALE_COMMAND_BAT_TIME)
        hear(answer + 1, 9);
}

int end_detector(void)
{
    fclose(to_program);
    fclose(from_program);
    return wait(NULL) < 0;
}
