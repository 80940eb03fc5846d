/* Times the calls of the C library beside two loops in C that write and take the same frames.
 *
 * - By hand: the library's own ring without its calls. It is of 64-bit words, each with the lap of the ring in its upper half, below it the
 *   number of samples that were placed there, and in its lowest 24 bits their sum plus 2^23. A written sample is a load and a
 *   compare-exchange, and a taken one an exchange, with one load of the position for a block, and one store of it for a period.
 * - As dmix: what alsa-lib's plugin does between programs that map one ring, for 16 bits on x86, written here by its published behaviour
 *   and not from its text. The card's ring has saturated samples of 16 bits, and beside it is a ring of 32-bit sums. Who adds a sample to a
 *   place that is silent, which a compare-exchange of 0 with 1 finds, takes the old sum away too, since nobody clears it. The sample is
 *   added to the sum atomically; then the saturated sum is stored as the card's sample, again and again until the sum is still the one that
 *   was stored. The card takes the sample and leaves silence, which is the driver's work there, so that its time says little. Nothing tells
 *   that a frame came too late: it is heard a lap later.
 *
 *     c_calls time                       prints what was timed, and nanoseconds a sample of the library, by hand and as dmix
 *     c_calls count write FRAMES CALLS   writes so many frames and takes them, so many times, for a count of instructions
 *     c_calls count take FRAMES CALLS    takes them alone */
#include "dmixlab.h"
#include <pthread.h>
#include <stdatomic.h>
#include <stdio.h>
#include <stdlib.h>
#include <string.h>
#include <time.h>

enum { RING = 1024, PERIOD = 64, CHANNELS = 2, BLOCK = 256, MOST_CLIENTS = 4, LAPS = 200, ROUNDS = 32 };
#define EMPTY (1u << 23)

static dmix_ring_t ring;
static dmix_card_t card;
static dmix_client_t clients[MOST_CLIENTS];
static int16_t samples[BLOCK * CHANNELS], taken[BLOCK * CHANNELS];

/* the rings by hand and as dmix, the card's position, and the frames that each client writes and the card takes next */
static _Atomic uint64_t words[RING * CHANNELS], position;
static _Atomic int16_t heard[RING * CHANNELS];
static _Atomic int32_t sums[RING * CHANNELS];
static uint64_t next_written[MOST_CLIENTS], next_taken;

static void want(int64_t answer, int64_t wanted, const char *what)
{
    if (answer == wanted)
        return;
    fprintf(stderr, "c_calls: %s answered %lld, not %lld\n", what, (long long)answer, (long long)wanted);
    exit(1);
}

static double now(void)
{
    struct timespec time;
    clock_gettime(CLOCK_MONOTONIC, &time);
    return (double)time.tv_sec * 1e9 + (double)time.tv_nsec;
}

/* A way to write and take, with clients that are two periods ahead of the card. */
struct way {
    void (*open)(unsigned count);
    int64_t (*write)(unsigned client, unsigned frames);
    void (*take)(unsigned frames);
    void (*close)(unsigned count);
};

static void open_library(unsigned count)
{
    const dmix_ring_params_t params = { CHANNELS, 48000, PERIOD, RING, count };
    const dmix_hw_params_t hw = { CHANNELS, 48000, PERIOD, RING / 2 };
    want(dmix_ring_open(&ring, &card, &params), 0, "dmix_ring_open");
    for (unsigned client = 0; client < count; client++) {
        want(dmix_client_open(&clients[client], &ring), 0, "dmix_client_open");
        want(dmix_hw_params(&clients[client], &hw), 0, "dmix_hw_params");
        want(dmix_writei(&clients[client], samples, PERIOD), PERIOD, "dmix_writei");
    }
}

static int64_t write_library(unsigned client, unsigned frames)
{
    return dmix_writei(&clients[client], samples, frames);
}

static void take_library(unsigned frames)
{
    want(dmix_card_play(&card, taken, frames), frames, "dmix_card_play");
}

static void close_library(unsigned count)
{
    for (unsigned client = 0; client < count; client++)
        want(dmix_client_close(&clients[client]), 0, "dmix_client_close");
    want(dmix_card_free(&card), 0, "dmix_card_free");
    want(dmix_ring_free(&ring), 0, "dmix_ring_free");
}

static void begin_at(unsigned count)
{
    position = next_taken = 0;
    for (unsigned client = 0; client < count; client++)
        next_written[client] = 2 * PERIOD;
}

static bool has_room(unsigned client, unsigned frames)
{
    return next_written[client] + frames <= atomic_load(&position) + RING;
}

/* A frame is taken: the position is published at the end of each period. */
static void move_on(void)
{
    if (++next_taken % PERIOD == 0)
        atomic_store(&position, next_taken);
}

static int16_t saturated(int32_t sum)
{
    return (int16_t)(sum > INT16_MAX ? INT16_MAX : sum < INT16_MIN ? INT16_MIN : sum);
}

static void open_by_hand(unsigned count)
{
    for (unsigned i = 0; i < RING * CHANNELS; i++)
        words[i] = EMPTY;
    begin_at(count);
}

/* Adds a sample while the word has the frame's lap. */
static bool add(_Atomic uint64_t *word, uint64_t lap, int16_t sample)
{
    uint64_t old = atomic_load(word);
    while (old >> 32 == lap)
        if (atomic_compare_exchange_strong(word, &old, old + (1u << 24) + (uint64_t)(int64_t)sample))
            return true;
    return false;
}

static int64_t write_by_hand(unsigned client, unsigned frames)
{
    uint64_t first = next_written[client];
    if (!has_room(client, frames))
        return -EAGAIN;
    for (unsigned i = 0; i < frames; i++)
        for (unsigned channel = 0; channel < CHANNELS; channel++)
            if (!add(&words[(first + i) % RING * CHANNELS + channel], (first + i) / RING, samples[i * CHANNELS + channel]))
                return -EPIPE;
    next_written[client] += frames;
    return frames;
}

static void take_by_hand(unsigned frames)
{
    for (unsigned i = 0; i < frames; i++) {
        uint64_t empty = ((next_taken / RING + 1) << 32) + EMPTY;
        for (unsigned channel = 0; channel < CHANNELS; channel++) {
            uint64_t found = atomic_exchange(&words[next_taken % RING * CHANNELS + channel], empty);
            taken[i * CHANNELS + channel] = saturated((int32_t)(found & 0xffffff) - (int32_t)EMPTY);
        }
        move_on();
    }
}

static void open_as_dmix(unsigned count)
{
    for (unsigned i = 0; i < RING * CHANNELS; i++) {
        heard[i] = 0;
        sums[i] = 0;
    }
    begin_at(count);
}

/* Adds a sample to a place, and stores what is heard there. */
static void mix(unsigned place, int16_t sample)
{
    int32_t more = sample, sum;
    int16_t silence = 0;
    if (atomic_compare_exchange_strong(&heard[place], &silence, 1))
        more -= atomic_load_explicit(&sums[place], memory_order_relaxed);
    atomic_fetch_add(&sums[place], more);
    do {
        sum = atomic_load_explicit(&sums[place], memory_order_relaxed);
        atomic_store_explicit(&heard[place], saturated(sum), memory_order_relaxed);
    } while (atomic_load_explicit(&sums[place], memory_order_relaxed) != sum);
}

static int64_t write_as_dmix(unsigned client, unsigned frames)
{
    uint64_t first = next_written[client];
    if (!has_room(client, frames))
        return -EAGAIN;
    for (unsigned i = 0; i < frames; i++)
        for (unsigned channel = 0; channel < CHANNELS; channel++)
            mix((first + i) % RING * CHANNELS + channel, samples[i * CHANNELS + channel]);
    next_written[client] += frames;
    return frames;
}

static void take_as_dmix(unsigned frames)
{
    for (unsigned i = 0; i < frames; i++) {
        for (unsigned channel = 0; channel < CHANNELS; channel++) {
            _Atomic int16_t *place = &heard[next_taken % RING * CHANNELS + channel];
            taken[i * CHANNELS + channel] = atomic_load_explicit(place, memory_order_relaxed);
            atomic_store_explicit(place, 0, memory_order_relaxed);
        }
        move_on();
    }
}

static void close_nothing(unsigned count)
{
    (void)count;
}

static const struct way library = { open_library, write_library, take_library, close_library };
static const struct way by_hand = { open_by_hand, write_by_hand, take_by_hand, close_nothing };
static const struct way as_dmix = { open_as_dmix, write_as_dmix, take_as_dmix, close_nothing };

/* Nanoseconds a sample, the least of the laps. */
struct best {
    double written, taken;
};

static double less(double one, double other)
{
    return one < other ? one : other;
}

/* One thread writes a block and takes it, in turn. */
static struct best time_alone(const struct way *way)
{
    struct best best = { 1e9, 1e9 };
    way->open(1);
    for (unsigned lap = 0; lap < LAPS; lap++) {
        double written = 0, took = 0;
        for (unsigned round = 0; round < ROUNDS; round++) {
            double start = now();
            int64_t answer = way->write(0, BLOCK);
            double between = now();
            way->take(BLOCK);
            took += now() - between;
            written += between - start;
            want(answer, BLOCK, "a write");
        }
        best.written = less(best.written, written / (ROUNDS * BLOCK * CHANNELS));
        best.taken = less(best.taken, took / (ROUNDS * BLOCK * CHANNELS));
    }
    way->close(1);
    return best;
}

/* What threads that write the same frames at once have in common: the takes are between two barriers, and aren't timed. */
static pthread_barrier_t barrier;
static const struct way *way_at_once;
static double spent[MOST_CLIENTS][LAPS];

static void *write_at_once(void *argument)
{
    unsigned client = (unsigned)(uintptr_t)argument;
    for (unsigned lap = 0; lap < LAPS; lap++) {
        double time = 0;
        for (unsigned round = 0; round < ROUNDS; round++) {
            pthread_barrier_wait(&barrier);
            double start = now();
            int64_t answer = way_at_once->write(client, BLOCK);
            time += now() - start;
            want(answer, BLOCK, "a write");
            pthread_barrier_wait(&barrier);
        }
        spent[client][lap] = time / (ROUNDS * BLOCK * CHANNELS);
    }
    return NULL;
}

/* Nanoseconds that a thread takes for a written sample, the mean of the threads in the best lap. */
static double time_at_once(const struct way *way, unsigned count)
{
    pthread_t threads[MOST_CLIENTS];
    double best = 1e9;
    way_at_once = way;
    way->open(count);
    pthread_barrier_init(&barrier, NULL, count + 1);
    for (unsigned client = 0; client < count; client++)
        pthread_create(&threads[client], NULL, write_at_once, (void *)(uintptr_t)client);
    for (unsigned round = 0; round < LAPS * ROUNDS; round++) {
        pthread_barrier_wait(&barrier);
        pthread_barrier_wait(&barrier);
        way->take(BLOCK);
    }
    for (unsigned client = 0; client < count; client++)
        pthread_join(threads[client], NULL);
    pthread_barrier_destroy(&barrier);
    way->close(count);
    for (unsigned lap = 0; lap < LAPS; lap++) {
        double sum = 0;
        for (unsigned client = 0; client < count; client++)
            sum += spent[client][lap];
        best = less(best, sum / count);
    }
    return best;
}

static void print_row(const char *what, double ours, double hand, double dmix)
{
    printf("%s\t%.2f\t%.2f\t%.2f\n", what, ours, hand, dmix);
}

static void time_all(void)
{
    struct best ours = time_alone(&library), hand = time_alone(&by_hand), dmix = time_alone(&as_dmix);
    print_row("a written sample, 1 thread", ours.written, hand.written, dmix.written);
    print_row("a taken sample, 1 thread", ours.taken, hand.taken, dmix.taken);
    for (unsigned count = 2; count <= MOST_CLIENTS; count++) {
        char what[64];
        snprintf(what, sizeof what, "a written sample, %u threads at once", count);
        print_row(what, time_at_once(&library, count), time_at_once(&by_hand, count), time_at_once(&as_dmix, count));
    }
}

/* The last block that is taken of clients which write one after the other, two laps long. */
static void take_last(const struct way *way, unsigned count, int16_t *last)
{
    way->open(count);
    for (unsigned round = 0; round < 2 * RING / BLOCK; round++) {
        for (unsigned client = 0; client < count; client++)
            want(way->write(client, BLOCK), BLOCK, "a write");
        way->take(BLOCK);
    }
    way->close(count);
    memcpy(last, taken, sizeof taken);
}

static void compare_ways(void)
{
    static int16_t ours[BLOCK * CHANNELS], hand[BLOCK * CHANNELS], dmix[BLOCK * CHANNELS];
    take_last(&library, MOST_CLIENTS, ours);
    take_last(&by_hand, MOST_CLIENTS, hand);
    take_last(&as_dmix, MOST_CLIENTS, dmix);
    want(memcmp(ours, hand, sizeof ours), 0, "the comparison with the ring by hand");
    want(memcmp(ours, dmix, sizeof ours), 0, "the comparison with the ring as dmix");
}

static void count_calls(bool writes, unsigned frames, unsigned long calls)
{
    if (frames < 1 || frames > BLOCK)
        want(frames, BLOCK, "the number of frames");
    open_library(1);
    if (!writes)
        want(dmix_drop(&clients[0]), 0, "dmix_drop");
    for (unsigned long call = 0; call < calls; call++) {
        if (writes)
            want(write_library(0, frames), frames, "dmix_writei");
        take_library(frames);
    }
    close_library(1);
}

int main(int argc, char **argv)
{
    for (unsigned i = 0; i < BLOCK * CHANNELS; i++)
        samples[i] = (int16_t)(i * 37 % 4001 - 2000);
    if (argc == 2 && !strcmp(argv[1], "time")) {
        compare_ways();
        time_all();
    } else if (argc == 5 && !strcmp(argv[1], "count")) {
        count_calls(!strcmp(argv[2], "write"), (unsigned)atoi(argv[3]), strtoul(argv[4], NULL, 10));
    } else {
        fprintf(stderr, "usage: c_calls time, or c_calls count write|take FRAMES CALLS\n");
        return 2;
    }
    return 0;
}
