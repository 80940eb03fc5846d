/* Memory that there isn't, and memory that is given back. Each request for memory of a call is refused once: the call answers -ENOMEM, and
 * its handles are as they were. Of all that was opened and closed, as many blocks stay as a ring's words take. */
#include <stddef.h>
#include <stdlib.h>

/* how many requests were made, which of them is refused (0: none), and how many blocks aren't given back */
static unsigned long requests, refused;
static long blocks;

static void *grant(void *block)
{
    blocks += block != NULL;
    return block;
}

static void *some_malloc(size_t bytes)
{
    return ++requests == refused ? NULL : grant(malloc(bytes));
}

static void *some_realloc(void *block, size_t bytes)
{
    return ++requests == refused ? NULL : realloc(block, bytes);
}

static void some_free(void *block)
{
    blocks -= block != NULL;
    free(block);
}

/* the library's heap, over these */
#define malloc some_malloc
#define realloc some_realloc
#define free some_free
#include "heap.c"
#undef malloc
#undef realloc
#undef free

#include "check.h"
#include "dmixlab.h"
#include <string.h>

enum { PERIOD = 64, RING = 1024, CYCLES = 20 };

static const dmix_ring_params_t params = { 2, 48000, PERIOD, RING, 1 };
static const dmix_hw_params_t stereo = { 2, 48000, PERIOD, RING / 2 }, mono = { 1, 48000, PERIOD, RING / 4 };
static dmix_ring_t ring;
static dmix_card_t card;
static dmix_client_t client;
static dmix_reader_t reader;
static int16_t samples[PERIOD * 2], captured[PERIOD * 2];

/* Makes a call until none of its requests is refused, and answers how many there were. */
static unsigned long refuse_each(int64_t (*call)(void), void (*stays)(void))
{
    for (refused = 1;; refused++) {
        requests = 0;
        int64_t answer = call();
        if (requests < refused) {
            ANSWERS(answer, 0);
            refused = 0;
            return requests;
        }
        ANSWERS(answer, -ENOMEM);
        stays();
    }
}

static int64_t open_ring(void) { return dmix_ring_open(&ring, &card, &params); }
static int64_t open_duplex(void) { return dmix_duplex_open(&ring, &card, &params); }
static int64_t open_client(void) { return dmix_client_open(&client, &ring); }
static int64_t open_reader(void) { return dmix_reader_open(&reader, &ring); }
static int64_t make_stereo(void) { return dmix_hw_params(&client, &stereo); }
static int64_t make_mono(void) { return dmix_hw_params(&client, &mono); }
static int64_t make_reader_stereo(void) { return dmix_reader_hw_params(&reader, &stereo); }
static int64_t make_reader_mono(void) { return dmix_reader_hw_params(&reader, &mono); }

/* A handle is closed where all of it is zero. */
static void is_zero(const void *handle, size_t bytes)
{
    for (size_t i = 0; i < bytes; i++)
        ANSWERS(((const unsigned char *)handle)[i], 0);
}

static void ring_stays_closed(void)
{
    is_zero(&ring, sizeof ring);
    is_zero(&card, sizeof card);
}

static void client_stays_closed(void) { is_zero(&client, sizeof client); }
static void client_stays_open(void) { ANSWERS(dmix_state(&client), DMIX_STATE_OPEN); }
static void reader_stays_closed(void) { is_zero(&reader, sizeof reader); }
static void reader_stays_open(void) { ANSWERS(dmix_reader_state(&reader), DMIX_STATE_OPEN); }

/* It has the buffer and the channels that it had. */
static void client_stays_stereo(void)
{
    ANSWERS(dmix_state(&client), DMIX_STATE_PREPARED);
    ANSWERS(dmix_avail_update(&client), RING / 2);
    ANSWERS((int64_t)client.channels_, 2);
}

static void reader_stays_stereo(void)
{
    ANSWERS(dmix_reader_state(&reader), DMIX_STATE_PREPARED);
    ANSWERS((int64_t)reader.channels_, 2);
}

/* A client of the only place, which no refused opening lost, that plays a period. */
static void use_client(void)
{
    refuse_each(open_client, client_stays_closed);
    refuse_each(make_stereo, client_stays_open);
    refuse_each(make_mono, client_stays_stereo);
    ANSWERS(dmix_hw_free(&client), 0);
    ANSWERS(dmix_hw_params(&client, &stereo), 0);
    requests = 0;
    ANSWERS(dmix_writei(&client, samples, PERIOD), PERIOD);
    ANSWERS(dmix_rewind(&client, 8), 8);
    ANSWERS(dmix_drain(&client), -EAGAIN);
    ANSWERS((int64_t)requests, 0);
}

static void use_reader(void)
{
    refuse_each(open_reader, reader_stays_closed);
    refuse_each(make_reader_stereo, reader_stays_open);
    refuse_each(make_reader_mono, reader_stays_stereo);
    ANSWERS(dmix_reader_hw_free(&reader), 0);
    ANSWERS(dmix_reader_hw_params(&reader, &stereo), 0);
    ANSWERS(dmix_reader_start(&reader), 0);
}

/* Opens a ring, uses it, and closes all: the client, whose place is taken by a second one, and ring, card and reader in this order. */
static void use_ring(void)
{
    use_client();
    requests = 0;
    for (int i = 0; i < 3; i++)
        ANSWERS(dmix_card_play(&card, samples, PERIOD), PERIOD);
    ANSWERS((int64_t)requests, 0);
    ANSWERS(dmix_client_close(&client), 0);
    ANSWERS(dmix_client_open(&client, &ring), 0);
    ANSWERS(dmix_ring_free(&ring), 0);
    ANSWERS(dmix_client_close(&client), 0);
    ANSWERS(dmix_card_free(&card), 0);
}

static void use_duplex(void)
{
    use_client();
    use_reader();
    requests = 0;
    for (int i = 0; i < 3; i++)
        ANSWERS(dmix_card_run(&card, captured, samples, PERIOD), PERIOD);
    ANSWERS(dmix_reader_readi(&reader, samples, PERIOD), PERIOD);
    ANSWERS((int64_t)requests, 0);
    ANSWERS(dmix_ring_free(&ring), 0);
    ANSWERS(dmix_card_free(&card), 0);
    ANSWERS(dmix_client_close(&client), 0);
    ANSWERS(dmix_reader_close(&reader), 0);
}

/* How many blocks stay of what is opened and closed at once: those of the words. */
static long blocks_of(int64_t (*open)(void))
{
    long before = blocks;
    ANSWERS(open(), 0);
    ANSWERS(dmix_ring_free(&ring), 0);
    ANSWERS(dmix_card_free(&card), 0);
    return blocks - before;
}

/* That no more blocks stay, whatever was done with a ring in between. */
static void give_back(int64_t (*open)(void), void (*use)(void), const char *what)
{
    long words = blocks_of(open);
    unsigned long asked = refuse_each(open, ring_stays_closed);
    use();
    for (int cycle = 0; cycle < CYCLES; cycle++) {
        long before = blocks;
        ANSWERS(open(), 0);
        use();
        ANSWERS(blocks - before, words);
    }
    printf("memory: the opening of %s asks %lu times for memory, and %ld blocks stay\n", what, asked, words);
}

int main(void)
{
    give_back(open_ring, use_ring, "a ring");
    give_back(open_duplex, use_duplex, "a ring that captures");
    return 0;
}
