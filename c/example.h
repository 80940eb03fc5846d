/* What the example programs have in common: they end where a call answers an error, and wait by the clock. */
#ifndef EXAMPLE_H
#define EXAMPLE_H

#include <stdint.h>
#include <stdio.h>
#include <stdlib.h>
#include <string.h>
#include <time.h>

static const char *program = "example";

static inline void fail(const char *what, const char *why)
{
    fprintf(stderr, "%s: %s: %s\n", program, what, why);
    exit(1);
}

/* Ends the program where a call of the library answered an error, and else passes its answer on. */
static inline int64_t want(int64_t answer, const char *what)
{
    if (answer < 0)
        fail(what, strerror((int)-answer));
    return answer;
}

/* Sleeps for so many frames. */
static inline void doze(unsigned frames, double rate)
{
    struct timespec time = { 0, (long)(1e9 * frames / rate) };
    nanosleep(&time, NULL);
}

/* Waits until so many frames more are due, by the clock. */
static inline void keep_time(struct timespec *due, unsigned frames, double rate)
{
    due->tv_nsec += (long)(1e9 * frames / rate);
    while (due->tv_nsec >= 1000000000L) {
        due->tv_nsec -= 1000000000L;
        due->tv_sec++;
    }
    clock_nanosleep(CLOCK_MONOTONIC, TIMER_ABSTIME, due, NULL);
}

#endif
