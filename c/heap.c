/* The three functions by which the proved code takes memory and gives it back: malloc, realloc and free of one allocator. A block of 0
 * bytes is one of 1 byte. The alignment that is asked for is at most 16, which malloc gives. */
#include <stdbool.h>
#include <stdlib.h>

struct tried {
    bool ok;
    void *block;
};

static char none[16];

static struct tried tried(void *block)
{
    struct tried result = { block != NULL, block ? block : none };
    return result;
}

struct tried rattle_alloc(size_t bytes, size_t alignment)
{
    (void)alignment;
    return tried(malloc(bytes ? bytes : 1));
}

struct tried rattle_realloc(void *block, size_t kept, size_t bytes, size_t alignment)
{
    (void)kept;
    (void)alignment;
    return tried(realloc(block, bytes ? bytes : 1));
}

void rattle_dealloc(void *block)
{
    free(block);
}
