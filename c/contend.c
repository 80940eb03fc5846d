/* Clients that write at the same time, each in a thread, and a card that takes: each sample is compared with the saturated sum of what the
 * clients wrote there.
 *
 *     contend [CLIENTS [FRAMES [CHANNELS [loud]]]]
 *
 * With `loud` the samples have the full range, so that sums are saturated. A card doesn't wait for clients; this one does, so that no frame
 * is late and all can be compared. */
#include "check.h"
#include "dmixlab.h"
#include <pthread.h>
#include <sched.h>
#include <stdatomic.h>
#include <string.h>

enum { RING = 1024, PERIOD = 64, MOST_CLIENTS = 64, MOST_CHANNELS = 8 };

static dmix_ring_t ring = DMIX_CLOSED;
static dmix_card_t card = DMIX_CLOSED;
static dmix_client_t clients[MOST_CLIENTS];
static _Atomic uint64_t accepted[MOST_CLIENTS];
static uint64_t frames;
static unsigned count, channels;
static bool loud;

/* What was found in the comparison. */
struct found {
    uint64_t compared, saturated, wrong;
};

/* The sample that a client writes in a frame and channel. */
static int16_t sample_of(unsigned client, uint64_t frame, unsigned channel)
{
    uint64_t x = (frame * MOST_CHANNELS + channel) * 0x9E3779B97F4A7C15ull + client * 0xD1B54A32D192ED03ull;
    x ^= x >> 29;
    x *= 0xBF58476D1CE4E5B9ull;
    x ^= x >> 32;
    int16_t sample = (int16_t)(x & 0xffff);
    return loud ? sample : (int16_t)(sample / (int)count);
}

static void fill(int16_t *buffer, unsigned client, uint64_t from, unsigned number)
{
    for (unsigned i = 0; i < number; i++)
        for (unsigned channel = 0; channel < channels; channel++)
            buffer[i * channels + channel] = sample_of(client, from + i, channel);
}

/* Writes a client's frames, in blocks of its own length. */
static void *write_frames(void *argument)
{
    unsigned client = (unsigned)(uintptr_t)argument;
    unsigned block = 1 + (client * 7 + 13) % PERIOD;
    int16_t buffer[PERIOD * MOST_CHANNELS];
    while (accepted[client] < frames) {
        uint64_t at = accepted[client];
        unsigned number = frames - at < block ? (unsigned)(frames - at) : block;
        fill(buffer, client, at, number);
        dmix_sframes_t taken = dmix_writei(&clients[client], buffer, number);
        if (taken == -EAGAIN) {
            sched_yield();
            continue;
        }
        if (taken < 0)
            ANSWERS(taken, number);
        accepted[client] = at + (uint64_t)taken;
    }
    return NULL;
}

static void open_all(void)
{
    dmix_ring_params_t params = { channels, 48000, PERIOD, RING, count };
    dmix_hw_params_t hw = { channels, 48000, PERIOD, RING / 2 };
    int16_t buffer[PERIOD * MOST_CHANNELS];
    ANSWERS(dmix_ring_open(&ring, &card, &params), 0);
    for (unsigned client = 0; client < count; client++) {
        ANSWERS(dmix_client_open(&clients[client], &ring), 0);
        ANSWERS(dmix_hw_params(&clients[client], &hw), 0);
        /* this starts it, at the card's frame PERIOD */
        fill(buffer, client, 0, PERIOD);
        ANSWERS(dmix_writei(&clients[client], buffer, PERIOD), PERIOD);
        accepted[client] = PERIOD;
    }
}

/* How many frames each client has written. */
static uint64_t least_accepted(void)
{
    uint64_t least = UINT64_MAX;
    for (unsigned client = 0; client < count; client++)
        if (accepted[client] < least)
            least = accepted[client];
    return least;
}

/* Compares a frame of the card with the sum of the clients' frames there, of which the first is at the card's frame PERIOD. */
static void compare(const int16_t *frame, uint64_t at, struct found *found)
{
    for (unsigned channel = 0; channel < channels; channel++) {
        long sum = 0;
        for (unsigned client = 0; at >= PERIOD && client < count; client++)
            sum += sample_of(client, at - PERIOD, channel);
        long wanted = sum > INT16_MAX ? INT16_MAX : sum < INT16_MIN ? INT16_MIN : sum;
        found->compared++;
        found->saturated += wanted != sum;
        found->wrong += frame[channel] != wanted;
    }
}

static void play_all(struct found *found)
{
    int16_t out[PERIOD * MOST_CHANNELS];
    uint64_t end = PERIOD + frames;
    for (uint64_t at = 0; at < end;) {
        uint64_t number = end - at < PERIOD ? end - at : PERIOD;
        /* a client that still writes keeps a frame that isn't played, or its stream would be an underrun */
        uint64_t least = least_accepted();
        if (at + number >= PERIOD + least + (least == frames)) {
            sched_yield();
            continue;
        }
        ANSWERS(dmix_card_play(&card, out, number), (int64_t)number);
        for (uint64_t i = 0; i < number; i++)
            compare(&out[i * channels], at + i, found);
        at += number;
    }
}

static void close_all(void)
{
    for (unsigned client = 0; client < count; client++)
        ANSWERS(dmix_client_close(&clients[client]), 0);
    ANSWERS(dmix_card_free(&card), 0);
    ANSWERS(dmix_ring_free(&ring), 0);
}

int main(int argc, char **argv)
{
    pthread_t threads[MOST_CLIENTS];
    struct found found = { 0, 0, 0 };
    count = (unsigned)number_or(argc, argv, 1, 4);
    frames = number_or(argc, argv, 2, 200000);
    channels = (unsigned)number_or(argc, argv, 3, 2);
    loud = argc > 4 && !strcmp(argv[4], "loud");
    if (count < 1 || count > MOST_CLIENTS || channels < 1 || channels > MOST_CHANNELS || frames < PERIOD) {
        fprintf(stderr, "usage: contend [CLIENTS [FRAMES [CHANNELS [loud]]]], with 1 to 64 clients and 64 frames or more\n");
        return 2;
    }
    open_all();
    for (unsigned client = 0; client < count; client++)
        pthread_create(&threads[client], NULL, write_frames, (void *)(uintptr_t)client);
    play_all(&found);
    for (unsigned client = 0; client < count; client++)
        pthread_join(threads[client], NULL);
    close_all();
    printf("contend: %u clients, %u channels, %llu frames: %llu samples compared, %llu of them saturated, %llu wrong\n", count, channels,
           (unsigned long long)frames, (unsigned long long)found.compared, (unsigned long long)found.saturated,
           (unsigned long long)found.wrong);
    return found.wrong != 0;
}
