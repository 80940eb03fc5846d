/* The loops of `bench sum` by hand: a ring of 64-bit words, each with the lap of the ring in its upper half, below it
 * the number of samples that were placed there, and in its lowest 24 bits their sum plus 2^23. The ring's length is a constant, so
 * nothing is divided. It prints the same lines. */
#include <pthread.h>
#include <stdint.h>
#include <stdio.h>
#include <stdlib.h>
#include <time.h>

#define FRAMES 16384u
#define LAPS 400u
#define SAMPLE 1
#define EMPTY (1u << 23)
#define MOST_THREADS 4u

/* A ring: word 0 is the position, and the others are the words of its frames and channels. */
struct ring {
    uint64_t *words;
    uint32_t channels;
    uint64_t next;
};

/* A stretch of frames in which one thread places samples, and how many it placed. */
struct stretch {
    struct ring *ring;
    uint64_t first;
    uint64_t count;
    uint64_t laid;
};

struct best {
    uint64_t place;
    uint64_t take;
};

static uint64_t now(void)
{
    struct timespec time;
    clock_gettime(CLOCK_MONOTONIC, &time);
    return time.tv_sec * 1000000000ull + time.tv_nsec;
}

static void fail(const char *why)
{
    fprintf(stderr, "sum_ring: %s\n", why);
    exit(1);
}

static uint64_t *word_at(struct ring *ring, uint64_t frame, uint32_t channel)
{
    return &ring->words[1 + frame % FRAMES * ring->channels + channel];
}

/* Adds the sample by a load and compare-exchanges, while the word has the frame's lap. */
static int place(struct ring *ring, uint64_t frame, uint32_t channel, int16_t sample)
{
    uint64_t *word = word_at(ring, frame, channel);
    uint64_t lap = frame / FRAMES;
    uint64_t old = __atomic_load_n(word, __ATOMIC_SEQ_CST);
    while (old >> 32 == lap) {
        uint64_t sum = old + (1u << 24) + (int64_t)sample;
        if (__atomic_compare_exchange_n(word, &old, sum, 0, __ATOMIC_SEQ_CST, __ATOMIC_SEQ_CST))
            return 1;
    }
    return 0;
}

/* Takes the word by a swap with the empty word of the next lap, and answers its sum, cut to 16 bits. */
static int16_t take(struct ring *ring, uint64_t frame, uint32_t channel)
{
    uint64_t empty = ((frame / FRAMES + 1) << 32) + EMPTY;
    uint64_t found = __atomic_exchange_n(word_at(ring, frame, channel), empty, __ATOMIC_SEQ_CST);
    int32_t sum = (int32_t)(found & 0xffffff) - (int32_t)EMPTY;
    return sum > 32767 ? 32767 : sum < -32768 ? -32768 : sum;
}

static void *lay(void *argument)
{
    struct stretch *stretch = argument;
    uint64_t laid = 0;
    for (uint64_t frame = stretch->first; frame < stretch->first + stretch->count; frame++)
        for (uint32_t channel = 0; channel < stretch->ring->channels; channel++)
            laid += place(stretch->ring, frame, channel, SAMPLE);
    stretch->laid = laid;
    return NULL;
}

/* Takes `frames` frames from the ring's next one on, publishes the position, and answers the sum of all. */
static uint64_t play(struct ring *ring, uint64_t frames)
{
    uint64_t sum = 0;
    for (uint64_t frame = ring->next; frame < ring->next + frames; frame++)
        for (uint32_t channel = 0; channel < ring->channels; channel++)
            sum += abs(take(ring, frame, channel));
    ring->next += frames;
    __atomic_store_n(&ring->words[0], ring->next, __ATOMIC_SEQ_CST);
    return sum;
}

static struct ring new_ring(uint32_t channels)
{
    uint32_t count = 1 + FRAMES * channels;
    struct ring ring = {malloc(8 * count), channels, 0};
    if (ring.words == NULL)
        fail("no memory");
    ring.words[0] = 0;
    for (uint32_t word = 1; word < count; word++)
        ring.words[word] = EMPTY;
    return ring;
}

/* Fills the stretches, each in a thread, the first one in this thread. Answers how many samples were placed. */
static uint64_t lay_all(struct stretch *stretches, uint32_t threads)
{
    pthread_t others[MOST_THREADS];
    for (uint32_t i = 1; i < threads; i++)
        if (pthread_create(&others[i], NULL, lay, &stretches[i]) != 0)
            fail("no thread");
    lay(&stretches[0]);
    uint64_t laid = stretches[0].laid;
    for (uint32_t i = 1; i < threads; i++) {
        pthread_join(others[i], NULL);
        laid += stretches[i].laid;
    }
    return laid;
}

/* Lays one lap by some threads, each as many frames, all from one frame on or one after another, and takes it. */
static void time_lap(struct ring *ring, uint32_t threads, int staggered, struct best *best)
{
    struct stretch stretches[MOST_THREADS];
    uint64_t count = FRAMES / threads;
    for (uint32_t i = 0; i < threads; i++)
        stretches[i] = (struct stretch){ring, ring->next + (staggered ? i * count : 0), count, 0};
    uint64_t start = now();
    uint64_t laid = lay_all(stretches, threads);
    uint64_t placed = now();
    uint64_t sum = play(ring, FRAMES);
    uint64_t taken = now();
    if (laid != FRAMES * ring->channels || sum != laid)
        fail("other samples");
    if (placed - start < best->place)
        best->place = placed - start;
    if (taken - placed < best->take)
        best->take = taken - placed;
}

static void time_laps(const char *what, uint32_t number, uint32_t channels, uint32_t threads, int staggered)
{
    struct ring ring = new_ring(channels);
    struct best best = {UINT64_MAX, UINT64_MAX};
    for (uint32_t i = 0; i < LAPS; i++)
        time_lap(&ring, threads, staggered, &best);
    printf("%s %u place %llu\n", what, number, (unsigned long long)best.place);
    printf("%s %u take %llu\n", what, number, (unsigned long long)best.take);
    free(ring.words);
}

int main(void)
{
    for (uint32_t channels = 1; channels <= 2; channels++)
        time_laps("alone", channels, channels, 1, 0);
    for (uint32_t threads = 2; threads <= MOST_THREADS; threads *= 2) {
        time_laps("same", threads, 1, threads, 0);
        time_laps("staggered", threads, 1, threads, 1);
    }
    return 0;
}
