/* Readers that read at the same time, each in a thread, what a card captures: each sample is compared with the one that was captured under
 * the number of its frame.
 *
 *     capture [READERS [FRAMES [CHANNELS [hurry]]]]
 *
 * A card doesn't wait for readers; this one does, so that no frame is stored over before it is read, and all are compared. With `hurry` it
 * waits for none until its last lap: readers are overtaken and begin again, and what they read until then has to be right all the same. */
#include "check.h"
#include "dmixlab.h"
#include <pthread.h>
#include <sched.h>
#include <stdatomic.h>
#include <string.h>

enum { RING = 1024, PERIOD = 64, MOST_READERS = 64, MOST_CHANNELS = 8 };

static dmix_ring_t ring = DMIX_CLOSED;
static dmix_card_t card = DMIX_CLOSED;
static dmix_reader_t readers[MOST_READERS];
/* the frame that each reader reads next */
static _Atomic uint64_t next[MOST_READERS];
static _Atomic uint64_t compared, wrong, overruns;
/* the readers and the card begin together */
static pthread_barrier_t beginning;
static uint64_t frames;
static unsigned count, channels;
static bool hurry;

/* The sample that is captured in a frame and channel. */
static int16_t captured_sample(uint64_t frame, unsigned channel)
{
    uint64_t x = (frame * MOST_CHANNELS + channel + 1) * 0x9E3779B97F4A7C15ull;
    x ^= x >> 31;
    x *= 0xBF58476D1CE4E5B9ull;
    return (int16_t)(x >> 48);
}

static void compare(const int16_t *samples, uint64_t first, uint64_t number)
{
    uint64_t found = 0;
    for (uint64_t i = 0; i < number; i++)
        for (unsigned channel = 0; channel < channels; channel++)
            found += samples[i * channels + channel] != captured_sample(first + i, channel);
    wrong += found;
    compared += number * channels;
}

/* Starts a reader, and finds out at which frame it begins. */
static void start(unsigned reader)
{
    dmix_status_t status;
    ANSWERS(dmix_reader_start(&readers[reader]), 0);
    ANSWERS(dmix_reader_status(&readers[reader], &status), 0);
    ANSWERS((int64_t)status.state, DMIX_STATE_RUNNING);
    next[reader] = status.position - status.avail;
}

/* Reads to the last frame, in blocks of a reader's own length. */
static void *read_frames(void *argument)
{
    unsigned reader = (unsigned)(uintptr_t)argument;
    unsigned block = 1 + (reader * 7 + 13) % (2 * PERIOD);
    int16_t buffer[2 * PERIOD * MOST_CHANNELS];
    pthread_barrier_wait(&beginning);
    while (next[reader] < frames) {
        dmix_sframes_t taken = dmix_reader_readi(&readers[reader], buffer, block);
        if (taken > 0) {
            compare(buffer, next[reader], (uint64_t)taken);
            next[reader] += (uint64_t)taken;
        } else if (taken == -EPIPE && hurry) {
            overruns++;
            ANSWERS(dmix_reader_prepare(&readers[reader]), 0);
            start(reader);
        } else {
            ANSWERS(taken, -EAGAIN);
            sched_yield();
        }
    }
    return NULL;
}

static void open_all(void)
{
    const dmix_ring_params_t params = { channels, 48000, PERIOD, RING, 1 };
    const dmix_hw_params_t hw = { channels, 48000, PERIOD, RING };
    const dmix_sw_params_t never_stops = { 1, 1u << 30, PERIOD };
    ANSWERS(dmix_duplex_open(&ring, &card, &params), 0);
    for (unsigned reader = 0; reader < count; reader++) {
        ANSWERS(dmix_reader_open(&readers[reader], &ring), 0);
        ANSWERS(dmix_reader_hw_params(&readers[reader], &hw), 0);
        if (hurry)
            ANSWERS(dmix_reader_sw_params(&readers[reader], &never_stops), 0);
        start(reader);
    }
}

static uint64_t least_next(void)
{
    uint64_t least = UINT64_MAX;
    for (unsigned reader = 0; reader < count; reader++)
        if (next[reader] < least)
            least = next[reader];
    return least;
}

/* The card's loop. Nobody writes, so that it plays silence. In the last lap it waits for each reader, which so reads some frames. */
static void run_card(void)
{
    int16_t captured[PERIOD * MOST_CHANNELS], played[PERIOD * MOST_CHANNELS];
    pthread_barrier_wait(&beginning);
    for (uint64_t at = 0; at < frames;) {
        uint64_t number = frames - at < PERIOD ? frames - at : PERIOD;
        while ((!hurry || at + RING >= frames) && at + number >= least_next() + RING)
            sched_yield();
        for (uint64_t i = 0; i < number; i++)
            for (unsigned channel = 0; channel < channels; channel++)
                captured[i * channels + channel] = captured_sample(at + i, channel);
        ANSWERS(dmix_card_run(&card, captured, played, number), (int64_t)number);
        for (uint64_t i = 0; i < number * channels; i++)
            ANSWERS(played[i], 0);
        at += number;
        sched_yield();
    }
}

static void close_all(void)
{
    for (unsigned reader = 0; reader < count; reader++)
        ANSWERS(dmix_reader_close(&readers[reader]), 0);
    ANSWERS(dmix_card_free(&card), 0);
    ANSWERS(dmix_ring_free(&ring), 0);
}

int main(int argc, char **argv)
{
    pthread_t threads[MOST_READERS];
    count = (unsigned)number_or(argc, argv, 1, 4);
    frames = number_or(argc, argv, 2, 200000);
    channels = (unsigned)number_or(argc, argv, 3, 2);
    hurry = argc > 4 && !strcmp(argv[4], "hurry");
    if (count < 1 || count > MOST_READERS || channels < 1 || channels > MOST_CHANNELS || frames < PERIOD) {
        fprintf(stderr, "usage: capture [READERS [FRAMES [CHANNELS [hurry]]]], with 1 to 64 readers and 64 frames or more\n");
        return 2;
    }
    open_all();
    pthread_barrier_init(&beginning, NULL, count + 1);
    for (unsigned reader = 0; reader < count; reader++)
        pthread_create(&threads[reader], NULL, read_frames, (void *)(uintptr_t)reader);
    run_card();
    for (unsigned reader = 0; reader < count; reader++)
        pthread_join(threads[reader], NULL);
    close_all();
    printf("capture: %u readers, %u channels, %llu frames: %llu samples compared, %llu wrong, %llu overruns\n", count, channels,
           (unsigned long long)frames, (unsigned long long)compared, (unsigned long long)wrong, (unsigned long long)overruns);
    if (hurry)
        ANSWERS(compared >= count * channels, true);
    else
        ANSWERS((int64_t)compared, (int64_t)(count * frames * channels));
    return wrong != 0;
}
