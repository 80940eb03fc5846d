/* An echo station: what the card's microphone hears is played again a while later, at half of its level, by a thread that reads and writes.
 *
 *     echo [-s SPEED] IN.wav OUT.wav
 *
 * IN.wav is what the microphone hears, and OUT.wav gets what the loudspeaker plays. The clock moves the card, SPEED times as fast. With a
 * sound card the body of the loop in `run_card` is its callback. */
#include "dmixlab.h"
#include "example.h"
#include "wav.h"
#include <pthread.h>
#include <stdatomic.h>

enum { PERIOD = 256, RING = 4096, BUFFER = 16384, DELAY = 8192, MOST_CHANNELS = 8 };

static dmix_ring_t ring = DMIX_CLOSED;
static dmix_card_t card = DMIX_CLOSED;
static dmix_reader_t reader = DMIX_CLOSED;
static dmix_client_t client = DMIX_CLOSED;
static unsigned channels, overruns, underruns;
/* frames a second, by the clock */
static double pace;
static atomic_bool ended;

/* Writes some frames, and waits where there is no room. After an underrun it goes on with the next ones. */
static void write_all(const int16_t *samples, uint64_t frames)
{
    while (frames && !ended) {
        dmix_sframes_t taken = dmix_writei(&client, samples, frames);
        if (taken == -EAGAIN) {
            doze(PERIOD / 2, pace);
        } else if (taken == -EPIPE) {
            underruns++;
            want(dmix_prepare(&client), "client");
        } else {
            samples += (uint64_t)want(taken, "client") * channels;
            frames -= (uint64_t)taken;
        }
    }
}

/* The station: each block that it reads is written after those before, and the silence at the beginning is how much later they are
 * heard. */
static void *answer(void *argument)
{
    static const int16_t silence[DELAY * MOST_CHANNELS];
    int16_t block[PERIOD * MOST_CHANNELS];
    (void)argument;
    write_all(silence, DELAY);
    while (!ended) {
        dmix_sframes_t heard = dmix_reader_readi(&reader, block, PERIOD);
        if (heard == -EAGAIN) {
            doze(PERIOD / 2, pace);
        } else if (heard == -EPIPE) {
            overruns++;
            want(dmix_reader_prepare(&reader), "reader");
        } else {
            want(heard, "reader");
            for (int64_t i = 0; i < heard * channels; i++)
                block[i] /= 2;
            write_all(block, (uint64_t)heard);
        }
    }
    return NULL;
}

/* The card's loop: a period from the microphone, and one for the loudspeaker. */
static void run_card(const struct wav *in, FILE *out, uint64_t frames)
{
    struct timespec due;
    clock_gettime(CLOCK_MONOTONIC, &due);
    for (uint64_t at = 0; at < frames; at += PERIOD) {
        int16_t microphone[PERIOD * MOST_CHANNELS] = { 0 }, loudspeaker[PERIOD * MOST_CHANNELS];
        uint64_t left = at < in->frames ? in->frames - at : 0;
        memcpy(microphone, in->samples + (in->frames - left) * channels, (left < PERIOD ? left : PERIOD) * channels * sizeof(int16_t));
        want(dmix_card_run(&card, microphone, loudspeaker, PERIOD), "card");
        if (fwrite(loudspeaker, channels * sizeof(int16_t), PERIOD, out) != PERIOD)
            fail("loudspeaker", "it takes no more");
        keep_time(&due, PERIOD, pace);
    }
}

static void open_all(uint32_t rate)
{
    const dmix_ring_params_t params = { channels, rate, PERIOD, RING, 1 };
    const dmix_hw_params_t writes = { channels, rate, PERIOD, BUFFER }, reads = { channels, rate, PERIOD, RING / 2 };
    want(dmix_duplex_open(&ring, &card, &params), "ring");
    want(dmix_reader_open(&reader, &ring), "reader");
    want(dmix_reader_hw_params(&reader, &reads), "reader");
    /* before the card begins, so that the first frame is heard */
    want(dmix_reader_start(&reader), "reader");
    want(dmix_client_open(&client, &ring), "client");
    want(dmix_hw_params(&client, &writes), "client");
}

/* Opens OUT.wav, for so many frames. */
static FILE *create(const char *name, uint32_t rate, uint64_t frames)
{
    FILE *out = fopen(name, "wb");
    if (!out || !wav_write_head(out, channels, rate, frames))
        fail(name, "it can't be written");
    return out;
}

static void close_all(void)
{
    want(dmix_reader_close(&reader), "reader");
    want(dmix_client_close(&client), "client");
    want(dmix_card_free(&card), "card");
    want(dmix_ring_free(&ring), "ring");
}

int main(int argc, char **argv)
{
    struct wav in;
    pthread_t station;
    bool has_speed = argc > 3 && !strcmp(argv[1], "-s");
    double speed = has_speed ? atof(argv[2]) : 1;
    int word = has_speed ? 3 : 1;
    program = "echo";
    if (argc != word + 2 || speed <= 0)
        fail("usage", "echo [-s SPEED] IN.wav OUT.wav");
    if (!wav_read(argv[word], &in) || in.channels > MOST_CHANNELS || !in.rate)
        fail(argv[word], "this is no WAV file of 16 bits and 1 to 8 channels");
    channels = in.channels;
    pace = in.rate * speed;
    /* whole periods, to the end of the echo */
    uint64_t frames = (in.frames + DELAY + 8 * PERIOD) / PERIOD * PERIOD;
    FILE *out = create(argv[word + 1], in.rate, frames);

    open_all(in.rate);
    pthread_create(&station, NULL, answer, NULL);
    run_card(&in, out, frames);
    ended = true;
    pthread_join(station, NULL);
    close_all();
    free(in.samples);
    if (fclose(out))
        fail(argv[word + 1], "it can't be written");
    printf("echo: %llu frames, %u overruns, %u underruns\n", (unsigned long long)frames, overruns, underruns);
    return 0;
}
