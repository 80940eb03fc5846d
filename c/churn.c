/* Clients that are opened, write and are closed again and again, in more threads than the ring has places, while a card takes that waits
 * for nobody.
 *
 *     churn [OPENINGS]
 *
 * Each client writes samples of 1. So no sample is above the number of places; and no more frames are heard than were accepted, but for
 * those of a write that ended in an underrun, which may have placed some. At the end each place is free again: that a closed client's place
 * comes back, from whichever thread, is tested here. */
#include "check.h"
#include "dmixlab.h"
#include <pthread.h>
#include <sched.h>
#include <stdatomic.h>

enum { RING = 1024, PERIOD = 64, CHANNELS = 2, PLACES = 4, THREADS = 6, WRITES = 200 };

static dmix_ring_t ring = DMIX_CLOSED;
static dmix_card_t card = DMIX_CLOSED;
/* opening uses the ring's handle; closing doesn't */
static pthread_mutex_t opening = PTHREAD_MUTEX_INITIALIZER;
static atomic_int working = THREADS;
static atomic_long opened, full, underruns, accepted;
static unsigned long openings;
static int16_t ones[PERIOD * CHANNELS];

static int64_t open_client(dmix_client_t *client)
{
    pthread_mutex_lock(&opening);
    int64_t answer = dmix_client_open(client, &ring);
    pthread_mutex_unlock(&opening);
    return answer;
}

static void write_some(dmix_client_t *client)
{
    for (int n = 0; n < WRITES; n++) {
        dmix_sframes_t taken = dmix_writei(client, ones, PERIOD);
        if (taken > 0) {
            accepted += taken;
        } else if (taken == -EPIPE) {
            underruns++;
            ANSWERS(dmix_prepare(client), 0);
        } else {
            ANSWERS(taken, -EAGAIN);
            sched_yield();
        }
    }
}

static void play_to_the_end(dmix_client_t *client)
{
    int64_t answer;
    while ((answer = dmix_drain(client)) == -EAGAIN)
        sched_yield();
    if (answer != -EPIPE)
        ANSWERS(answer, 0);
}

static void *come_and_go(void *argument)
{
    (void)argument;
    dmix_hw_params_t hw = { CHANNELS, 48000, PERIOD, RING / 2 };
    for (unsigned long n = 0; n < openings; n++) {
        dmix_client_t client = DMIX_CLOSED;
        int64_t answer = open_client(&client);
        if (answer == -EAGAIN) {
            full++;
            sched_yield();
            continue;
        }
        ANSWERS(answer, 0);
        opened++;
        ANSWERS(dmix_hw_params(&client, &hw), 0);
        write_some(&client);
        if (n % 2)
            play_to_the_end(&client);
        ANSWERS(dmix_client_close(&client), 0);
    }
    working--;
    return NULL;
}

/* Takes a period, and answers the sum of its samples. */
static long play_period(long *greatest)
{
    int16_t out[PERIOD * CHANNELS];
    long sum = 0;
    ANSWERS(dmix_card_play(&card, out, PERIOD), PERIOD);
    for (int i = 0; i < PERIOD * CHANNELS; i++) {
        sum += out[i];
        if (out[i] > *greatest)
            *greatest = out[i];
    }
    return sum;
}

/* Each place is free again once all is played. */
static void open_every_place(void)
{
    dmix_client_t clients[PLACES + 1] = { DMIX_CLOSED };
    for (int place = 0; place < PLACES; place++)
        ANSWERS(dmix_client_open(&clients[place], &ring), 0);
    ANSWERS(dmix_client_open(&clients[PLACES], &ring), -EAGAIN);
    for (int place = 0; place < PLACES; place++)
        ANSWERS(dmix_client_close(&clients[place]), 0);
}

int main(int argc, char **argv)
{
    dmix_ring_params_t params = { CHANNELS, 48000, PERIOD, RING, PLACES };
    pthread_t threads[THREADS];
    long heard = 0, greatest = 0;
    openings = number_or(argc, argv, 1, 400);
    for (int i = 0; i < PERIOD * CHANNELS; i++)
        ones[i] = 1;
    ANSWERS(dmix_ring_open(&ring, &card, &params), 0);
    for (int i = 0; i < THREADS; i++)
        pthread_create(&threads[i], NULL, come_and_go, NULL);
    while (working) {
        heard += play_period(&greatest);
        sched_yield();
    }
    for (int i = 0; i < THREADS; i++)
        pthread_join(threads[i], NULL);
    for (int i = 0; i < RING / PERIOD + 2; i++)
        heard += play_period(&greatest);
    open_every_place();
    ANSWERS(dmix_card_free(&card), 0);
    ANSWERS(dmix_ring_free(&ring), 0);
    printf("churn: %ld openings, %ld times no place, %ld underruns, %ld frames accepted, %ld heard, the greatest sample %ld of at most "
           "%d\n",
           (long)opened, (long)full, (long)underruns, (long)accepted, heard / CHANNELS, greatest, PLACES);
    return greatest > PLACES || heard / CHANNELS > accepted + underruns * PERIOD;
}
