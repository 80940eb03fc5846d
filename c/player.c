/* Plays WAV files at once, each from a thread of its own, through a ring into a device of alsa-lib.
 *
 *     player [-D DEVICE] [-s SPEED] FILE.wav ..
 *
 * The files are of 16 bits, of one rate, and of one channel or two; one channel is heard on both sides. A device without a card, as `null`
 * or `file:OUT.wav,wav`, doesn't keep time: with -s the clock does, SPEED times as fast. */
#include "dmixlab.h"
#include "example.h"
#include "wav.h"
#include <alsa/asoundlib.h>
#include <pthread.h>
#include <stdatomic.h>

enum { CHANNELS = 2, PERIOD = 256, RING = 2048, MOST_VOICES = 16, LATENCY = 50000 };

/* A file and its client. */
struct voice {
    const char *name;
    struct wav wav;
    dmix_client_t client;
    unsigned underruns;
    int64_t error;
};

static dmix_ring_t ring = DMIX_CLOSED;
static dmix_card_t card = DMIX_CLOSED;
static struct voice voices[MOST_VOICES];
static unsigned count;
static atomic_uint playing;

/* Writes all frames, and waits where there is no room. After an underrun it goes on with the next ones. */
static void write_all(struct voice *voice)
{
    const int16_t *samples = voice->wav.samples;
    uint64_t frames = voice->wav.frames;
    while (frames && !voice->error) {
        dmix_sframes_t taken = dmix_writei(&voice->client, samples, frames < PERIOD ? frames : PERIOD);
        if (taken == -EAGAIN) {
            doze(PERIOD / 2, voice->wav.rate);
        } else if (taken == -EPIPE) {
            voice->underruns++;
            want(dmix_prepare(&voice->client), voice->name);
        } else if (taken < 0) {
            voice->error = taken;
        } else {
            samples += taken * CHANNELS;
            frames -= (uint64_t)taken;
        }
    }
}

static void *play_voice(void *argument)
{
    struct voice *voice = argument;
    write_all(voice);
    while (!voice->error && dmix_drain(&voice->client) == -EAGAIN)
        doze(PERIOD / 2, voice->wav.rate);
    atomic_fetch_sub(&playing, 1);
    return NULL;
}

static void open_voice(struct voice *voice)
{
    const dmix_hw_params_t params = { CHANNELS, voice->wav.rate, PERIOD, RING / 2 };
    want(dmix_client_open(&voice->client, &ring), voice->name);
    want(dmix_hw_params(&voice->client, &params), voice->name);
}

static snd_pcm_t *open_device(const char *device, uint32_t rate)
{
    snd_pcm_t *pcm;
    int error = snd_pcm_open(&pcm, device, SND_PCM_STREAM_PLAYBACK, 0);
    if (error >= 0)
        error = snd_pcm_set_params(pcm, SND_PCM_FORMAT_S16_LE, SND_PCM_ACCESS_RW_INTERLEAVED, CHANNELS, rate, 0, LATENCY);
    if (error < 0)
        fail(device, snd_strerror(error));
    return pcm;
}

/* The card's loop: takes what is mixed, and hands it to the device, until each voice has ended. Answers how many frames there were. */
static uint64_t play_card(snd_pcm_t *pcm, const char *device, double speed)
{
    int16_t out[PERIOD * CHANNELS];
    uint64_t played = 0;
    struct timespec due;
    clock_gettime(CLOCK_MONOTONIC, &due);
    while (atomic_load(&playing)) {
        want(dmix_card_play(&card, out, PERIOD), "card");
        snd_pcm_sframes_t written = snd_pcm_writei(pcm, out, PERIOD);
        if (written < 0)
            written = snd_pcm_recover(pcm, (int)written, 1);
        if (written < 0)
            fail(device, snd_strerror((int)written));
        played += PERIOD;
        if (speed > 0)
            keep_time(&due, PERIOD, voices[0].wav.rate * speed);
    }
    return played;
}

/* One channel is copied to both: by a client of its own for each side, left and right could begin in different periods. */
static void copy_channel(struct voice *voice)
{
    int16_t *both = malloc((size_t)voice->wav.frames * sizeof *both * CHANNELS + 1);
    if (!both)
        fail(voice->name, "there is no memory for it");
    for (uint64_t i = 0; i < voice->wav.frames * CHANNELS; i++)
        both[i] = voice->wav.samples[i / CHANNELS];
    free(voice->wav.samples);
    voice->wav.samples = both;
}

static void read_voice(const char *name)
{
    struct voice *voice = &voices[count];
    if (count == MOST_VOICES)
        fail(name, "there are too many files");
    voice->name = name;
    if (!wav_read(name, &voice->wav) || voice->wav.channels > CHANNELS || !voice->wav.rate)
        fail(name, "this is no WAV file of 16 bits and 1 or 2 channels");
    if (voice->wav.rate != voices[0].wav.rate)
        fail(name, "its rate isn't that of the first file");
    if (voice->wav.channels == 1)
        copy_channel(voice);
    count++;
}

static void close_voice(struct voice *voice)
{
    want(dmix_client_close(&voice->client), voice->name);
    printf("%s: %llu frames, %u underruns%s%s\n", voice->name, (unsigned long long)voice->wav.frames, voice->underruns,
           voice->error ? ", ended by: " : "", voice->error ? strerror((int)-voice->error) : "");
    free(voice->wav.samples);
}

/* The words before the files. Answers at which word the files begin. */
static int read_options(int argc, char **argv, const char **device, double *speed)
{
    int word = 1;
    for (; word + 1 < argc && argv[word][0] == '-'; word += 2) {
        if (!strcmp(argv[word], "-D"))
            *device = argv[word + 1];
        if (!strcmp(argv[word], "-s"))
            *speed = atof(argv[word + 1]);
    }
    return word;
}

int main(int argc, char **argv)
{
    const char *device = "default";
    double speed = 0;
    program = "player";
    for (int word = read_options(argc, argv, &device, &speed); word < argc; word++)
        read_voice(argv[word]);
    if (!count)
        fail("usage", "player [-D DEVICE] [-s SPEED] FILE.wav ..");

    dmix_ring_params_t params = { CHANNELS, voices[0].wav.rate, PERIOD, RING, MOST_VOICES };
    pthread_t threads[MOST_VOICES];
    want(dmix_ring_open(&ring, &card, &params), "ring");
    snd_pcm_t *pcm = open_device(device, voices[0].wav.rate);
    atomic_store(&playing, count);
    for (unsigned i = 0; i < count; i++) {
        open_voice(&voices[i]);
        pthread_create(&threads[i], NULL, play_voice, &voices[i]);
    }
    uint64_t played = play_card(pcm, device, speed);
    snd_pcm_drain(pcm);
    snd_pcm_close(pcm);
    for (unsigned i = 0; i < count; i++) {
        pthread_join(threads[i], NULL);
        close_voice(&voices[i]);
    }
    printf("%s: %llu frames\n", device, (unsigned long long)played);
    dmix_card_free(&card);
    dmix_ring_free(&ring);
    return 0;
}
