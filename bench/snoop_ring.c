/* The loops of `bench snoop` by hand: a ring of 64-bit words, each with one more than the lap of its frame in its upper
 * half, and in its lowest 16 bits its sample plus 2^15. The ring's length is a constant, so nothing is divided. It prints the
 * same lines. CALLED is what is before the two functions that store and load a frame: nothing, or that they aren't inlined. */
#include <stdint.h>
#include <stdio.h>
#include <stdlib.h>
#include <time.h>

#define FRAMES 16384u
#define LAPS 400u
#define SAMPLE 1
#define OFFSET (1u << 15)
#define MOST_CHANNELS 8u
#ifndef CALLED
#define CALLED
#endif

/* A ring: word 0 is the position, and the others are the words of its frames and channels. */
struct ring {
    uint64_t *words;
    uint32_t channels;
    uint64_t next;
};

struct best {
    uint64_t store;
    uint64_t load;
};

static uint64_t now(void)
{
    struct timespec time;
    clock_gettime(CLOCK_MONOTONIC, &time);
    return time.tv_sec * 1000000000ull + time.tv_nsec;
}

static void fail(const char *why)
{
    fprintf(stderr, "snoop_ring: %s\n", why);
    exit(1);
}

static uint64_t *words_at(struct ring *ring, uint64_t frame)
{
    return &ring->words[1 + frame % FRAMES * ring->channels];
}

/* Stores a frame by one store for each channel. */
CALLED static void store_frame(struct ring *ring, const int16_t *frame)
{
    uint64_t *words = words_at(ring, ring->next);
    uint64_t lap = (ring->next / FRAMES + 1) << 32;
    for (uint32_t channel = 0; channel < ring->channels; channel++)
        __atomic_store_n(&words[channel], lap + (uint32_t)(frame[channel] + (int32_t)OFFSET), __ATOMIC_SEQ_CST);
    ring->next++;
}

/* Loads a frame by one load for each channel, while the words have the frame's lap. */
CALLED static int load_frame(struct ring *ring, uint64_t frame, int16_t *out)
{
    uint64_t *words = words_at(ring, frame);
    uint64_t laps = frame / FRAMES + 1;
    for (uint32_t channel = 0; channel < ring->channels; channel++) {
        uint64_t word = __atomic_load_n(&words[channel], __ATOMIC_SEQ_CST);
        if (word >> 32 != laps)
            return 0;
        out[channel] = (int32_t)(word & 0xffff) - (int32_t)OFFSET;
    }
    return 1;
}

static void store_lap(struct ring *ring, const int16_t *frame)
{
    for (uint32_t i = 0; i < FRAMES; i++)
        store_frame(ring, frame);
    __atomic_store_n(&ring->words[0], ring->next, __ATOMIC_SEQ_CST);
}

static uint64_t load_lap(struct ring *ring, int16_t *out)
{
    uint64_t sum = 0;
    for (uint64_t frame = ring->next - FRAMES; frame < ring->next; frame++)
        if (load_frame(ring, frame, out))
            sum += abs(out[0]);
    return sum;
}

static struct ring new_ring(uint32_t channels)
{
    uint32_t count = 1 + FRAMES * channels;
    struct ring ring = {malloc(8 * count), channels, 0};
    if (ring.words == NULL)
        fail("no memory");
    ring.words[0] = 0;
    for (uint32_t word = 1; word < count; word++)
        ring.words[word] = OFFSET;
    return ring;
}

static struct best time_ring(uint32_t channels)
{
    struct ring ring = new_ring(channels);
    struct best best = {UINT64_MAX, UINT64_MAX};
    int16_t frame[MOST_CHANNELS];
    for (uint32_t channel = 0; channel < MOST_CHANNELS; channel++)
        frame[channel] = SAMPLE;
    for (uint32_t lap = 0; lap < LAPS; lap++) {
        uint64_t start = now();
        store_lap(&ring, frame);
        uint64_t stored = now();
        uint64_t sum = load_lap(&ring, frame);
        uint64_t loaded = now();
        if (sum != FRAMES)
            fail("another sum");
        if (stored - start < best.store)
            best.store = stored - start;
        if (loaded - stored < best.load)
            best.load = loaded - stored;
    }
    free(ring.words);
    return best;
}

int main(void)
{
    static const uint32_t channels[] = {1, 2, 8};
    for (int i = 0; i < 3; i++) {
        struct best best = time_ring(channels[i]);
        printf("store %u %llu\n", channels[i], (unsigned long long)best.store);
        printf("load %u %llu\n", channels[i], (unsigned long long)best.load);
    }
    return 0;
}
