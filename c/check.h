/* What the tests have in common: a call is compared with the answer that it has to give. */
#ifndef CHECK_H
#define CHECK_H

#include <stdint.h>
#include <stdio.h>
#include <stdlib.h>

/* Ends the test where a call doesn't answer as it has to. */
#define ANSWERS(call, wanted) answers((call), (wanted), #call, __FILE__, __LINE__)

static inline void answers(int64_t answer, int64_t wanted, const char *call, const char *file, int line)
{
    if (answer == wanted)
        return;
    fprintf(stderr, "%s:%d: %s answered %lld, not %lld\n", file, line, call, (long long)answer, (long long)wanted);
    exit(1);
}

/* A number on the command line, or another one where there is none. */
static inline unsigned long number_or(int argc, char **argv, int at, unsigned long other)
{
    return at < argc ? strtoul(argv[at], NULL, 10) : other;
}

#endif
