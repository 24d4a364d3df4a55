/* Libraries under the fourteen names, and command programs, that the tests must not let pass and must survive. None lives for more than five
 * minutes, in case that the tests fail to end it. What one does is said when it is compiled:
 *
 *   -DANSWER=N    every call answers N
 *   -DOPENINGS=N  but the first N openings are accepted
 *   -DSTUBBORN    ignores the signals that ask a program to end
 *   -DSPAWNS      starts another process, which sleeps for ever
 *   -DWRITES      writes for ever
 *   -DSLEEPS      sleeps for ever
 *   -DPROGRAM     a program that does all this at once, and no library
 *
 * The arguments are not looked at, so the functions are declared without them. */
#define _POSIX_C_SOURCE 200809L
#include <signal.h>
#include <stdint.h>
#include <unistd.h>

#ifndef ANSWER
#define ANSWER 0
#endif
#ifndef OPENINGS
#define OPENINGS 0
#endif

#define LIFE 300

static uint8_t called(void)
{
    alarm(LIFE);
#ifdef STUBBORN
    signal(SIGTERM, SIG_IGN);
    signal(SIGPIPE, SIG_IGN);
    signal(SIGHUP, SIG_IGN);
#endif
#ifdef SPAWNS
    static int spawned;
    if (!spawned++ && fork() == 0) {
        alarm(LIFE);
        for (;;)
            pause();
    }
#endif
#ifdef WRITES
    for (;;)
        if (write(1, "a library that writes for ever\n", 31) < 0)
            continue;
#endif
#ifdef SLEEPS
    for (;;)
        pause();
#endif
    return ANSWER;
}

#ifdef PROGRAM
int main(void)
{
    return called();
}
#else
uint8_t nimbleshale_open(void)
{
    static int opened;
    uint8_t answer = called();
    return opened++ < OPENINGS ? 0 : answer;
}

uint8_t nimbleshale_start(void)
{
    return called();
}

uint8_t nimbleshale_end(void)
{
    return called();
}

uint8_t nimbleshale_question(void)
{
    return called();
}

uint8_t nimbleshale_bat_time(void)
{
    return called();
}

uint8_t nimbleshale_lookup_starts(void)
{
    return called();
}

uint8_t nimbleshale_lookup_ends(void)
{
    return called();
}

uint8_t nimbleshale_lookup_time(void)
{
    return called();
}

uint8_t nimbleshale_commands(void)
{
    return called();
}

uint8_t nimbleshale_burst(void)
{
    return called();
}

void nimbleshale_block_reset(void)
{
    called();
}

uint8_t nimbleshale_block_read(void)
{
    return called();
}

uint8_t nimbleshale_block_line(void)
{
    return called();
}

void nimbleshale_block_write(void)
{
    called();
}
#endif
