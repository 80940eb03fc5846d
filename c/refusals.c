/* What must be refused, and changes nothing: null pointers, closed handles, handles of another kind, rings without a free place, and
 * parameters, lengths and states out of range; and what calls load and count in each state. */
#include "check.h"
#include "dmixlab.h"
#include <string.h>

enum { PERIOD = 64, RING = 1024, PLACES = 2 };

static const dmix_ring_params_t params = { 2, 48000, PERIOD, RING, PLACES };
static const dmix_hw_params_t hw = { 2, 48000, PERIOD, RING / 2 };
static const dmix_sw_params_t sw = { 1, RING / 2, PERIOD };
static int16_t samples[PERIOD * 8], microphone[PERIOD * 8];

/* Each call of a client, where it is none. */
static void refuse_client(dmix_client_t *client, int64_t wanted)
{
    dmix_status_t status = { 99, 99, 99, 99 };
    uint32_t bindings[2] = { 1, 0 };
    ANSWERS(dmix_hw_params(client, &hw), wanted);
    ANSWERS(dmix_hw_params_bindings(client, &hw, bindings, 2), wanted);
    ANSWERS(dmix_hw_free(client), wanted);
    ANSWERS(dmix_sw_params(client, &sw), wanted);
    ANSWERS(dmix_prepare(client), wanted);
    ANSWERS(dmix_start(client), wanted);
    ANSWERS(dmix_drop(client), wanted);
    ANSWERS(dmix_drain(client), wanted);
    ANSWERS(dmix_pause(client, true), wanted);
    ANSWERS(dmix_pause(client, false), wanted);
    ANSWERS(dmix_state(client), wanted);
    ANSWERS(dmix_writei(client, samples, 1), wanted);
    ANSWERS(dmix_avail_update(client), wanted);
    ANSWERS(dmix_delay(client), wanted);
    ANSWERS(dmix_rewindable(client), wanted);
    ANSWERS(dmix_rewind(client, 1), wanted);
    ANSWERS(dmix_status(client, &status), wanted);
    ANSWERS((int64_t)status.position, 99);
    ANSWERS(dmix_client_close(client), wanted);
}

/* Each call of a reader, where it is none. */
static void refuse_reader(dmix_reader_t *reader, int64_t wanted)
{
    dmix_status_t status = { 99, 99, 99, 99 };
    uint32_t bindings[2] = { 1, 0 };
    samples[0] = 99;
    ANSWERS(dmix_reader_hw_params(reader, &hw), wanted);
    ANSWERS(dmix_reader_hw_params_bindings(reader, &hw, bindings, 2), wanted);
    ANSWERS(dmix_reader_hw_free(reader), wanted);
    ANSWERS(dmix_reader_sw_params(reader, &sw), wanted);
    ANSWERS(dmix_reader_prepare(reader), wanted);
    ANSWERS(dmix_reader_start(reader), wanted);
    ANSWERS(dmix_reader_drop(reader), wanted);
    ANSWERS(dmix_reader_state(reader), wanted);
    ANSWERS(dmix_reader_readi(reader, samples, 1), wanted);
    ANSWERS(dmix_reader_avail_update(reader), wanted);
    ANSWERS(dmix_reader_delay(reader), wanted);
    ANSWERS(dmix_reader_status(reader, &status), wanted);
    ANSWERS(dmix_reader_close(reader), wanted);
    ANSWERS((int64_t)status.position, 99);
    ANSWERS(samples[0], 99);
}

/* Each call of a card, where it is none. */
static void refuse_card(dmix_card_t *card, int64_t wanted)
{
    samples[0] = 99;
    ANSWERS(dmix_card_play(card, samples, 1), wanted);
    ANSWERS(dmix_card_run(card, microphone, samples, 1), wanted);
    ANSWERS(dmix_card_unplug(card), wanted);
    ANSWERS(dmix_card_free(card), wanted);
    ANSWERS(samples[0], 99);
}

/* Each call of a ring, where it is none. */
static void refuse_ring(dmix_ring_t *ring, int64_t wanted)
{
    dmix_client_t client = DMIX_CLOSED;
    dmix_reader_t reader = DMIX_CLOSED;
    ANSWERS(dmix_client_open(&client, ring), wanted);
    ANSWERS(dmix_reader_open(&reader, ring), wanted);
    ANSWERS(dmix_ring_free(ring), wanted);
    refuse_client(&client, -EBADF);
    refuse_reader(&reader, -EBADF);
}

/* A null pointer in each other place: a handle that is to be opened, parameters and buffers. Nothing is looked at then. */
static void refuse_null(void)
{
    dmix_ring_t ring = DMIX_CLOSED;
    dmix_card_t card = DMIX_CLOSED;
    dmix_client_t client = DMIX_CLOSED;
    dmix_reader_t reader = DMIX_CLOSED;
    ANSWERS(dmix_ring_open(NULL, &card, &params), -EFAULT);
    ANSWERS(dmix_ring_open(&ring, NULL, &params), -EFAULT);
    ANSWERS(dmix_ring_open(&ring, &card, NULL), -EFAULT);
    ANSWERS(dmix_duplex_open(NULL, &card, &params), -EFAULT);
    ANSWERS(dmix_duplex_open(&ring, NULL, &params), -EFAULT);
    ANSWERS(dmix_duplex_open(&ring, &card, NULL), -EFAULT);
    ANSWERS(dmix_client_open(NULL, &ring), -EFAULT);
    ANSWERS(dmix_hw_params(&client, NULL), -EFAULT);
    ANSWERS(dmix_hw_params_bindings(&client, NULL, &hw.channels, 1), -EFAULT);
    ANSWERS(dmix_hw_params_bindings(&client, &hw, NULL, 2), -EFAULT);
    ANSWERS(dmix_sw_params(&client, NULL), -EFAULT);
    ANSWERS(dmix_status(&client, NULL), -EFAULT);
    ANSWERS(dmix_writei(&client, NULL, 1), -EFAULT);
    ANSWERS(dmix_card_play(&card, NULL, 1), -EFAULT);
    ANSWERS(dmix_card_run(&card, NULL, samples, 1), -EFAULT);
    ANSWERS(dmix_card_run(&card, samples, NULL, 1), -EFAULT);
    ANSWERS(dmix_reader_open(NULL, &ring), -EFAULT);
    ANSWERS(dmix_reader_hw_params(&reader, NULL), -EFAULT);
    ANSWERS(dmix_reader_hw_params_bindings(&reader, NULL, &hw.channels, 1), -EFAULT);
    ANSWERS(dmix_reader_hw_params_bindings(&reader, &hw, NULL, 2), -EFAULT);
    ANSWERS(dmix_reader_sw_params(&reader, NULL), -EFAULT);
    ANSWERS(dmix_reader_status(&reader, NULL), -EFAULT);
    ANSWERS(dmix_reader_readi(&reader, NULL, 1), -EFAULT);
}

/* Each call with a handle that is null. */
static void refuse_null_handles(void)
{
    refuse_ring(NULL, -EFAULT);
    refuse_card(NULL, -EFAULT);
    refuse_client(NULL, -EFAULT);
    refuse_reader(NULL, -EFAULT);
}

/* Each call with a handle that is closed. */
static void refuse_closed_handles(void)
{
    dmix_ring_t ring = DMIX_CLOSED;
    dmix_card_t card = DMIX_CLOSED;
    dmix_client_t client = DMIX_CLOSED;
    dmix_reader_t reader = DMIX_CLOSED;
    refuse_ring(&ring, -EBADF);
    refuse_card(&card, -EBADF);
    refuse_client(&client, -EBADF);
    refuse_reader(&reader, -EBADF);
}

/* Handles that are open are refused as what they aren't, and stay what they are. */
static void refuse_handles(void)
{
    dmix_ring_t ring = DMIX_CLOSED;
    dmix_card_t card = DMIX_CLOSED;
    dmix_client_t client = DMIX_CLOSED;
    ANSWERS(dmix_ring_open((dmix_ring_t *)&card, &card, &params), -EINVAL);
    ANSWERS(dmix_ring_open(&ring, &card, &params), 0);
    ANSWERS(dmix_ring_open(&ring, &card, &params), -EBUSY);
    ANSWERS(dmix_client_open((dmix_client_t *)&ring, &ring), -EINVAL);
    ANSWERS(dmix_client_open(&client, &ring), 0);
    ANSWERS(dmix_client_open(&client, &ring), -EBUSY);
    refuse_client((dmix_client_t *)&ring, -EBADF);
    refuse_client((dmix_client_t *)&card, -EBADF);
    refuse_reader((dmix_reader_t *)&ring, -EBADF);
    refuse_reader((dmix_reader_t *)&card, -EBADF);
    refuse_reader((dmix_reader_t *)&client, -EBADF);
    refuse_card((dmix_card_t *)&ring, -EBADF);
    refuse_card((dmix_card_t *)&client, -EBADF);
    refuse_ring((dmix_ring_t *)&card, -EBADF);
    refuse_ring((dmix_ring_t *)&client, -EBADF);
    ANSWERS(dmix_card_run(&card, microphone, samples, 1), -EBADF);
    ANSWERS(dmix_card_play(&card, samples, DMIX_FRAMES_MOST + 1), -EINVAL);
    ANSWERS(dmix_state(&client), DMIX_STATE_OPEN);
    ANSWERS(dmix_client_close(&client), 0);
    ANSWERS(dmix_card_play(&card, samples, 1), 1);
    ANSWERS(dmix_card_free(&card), 0);
    ANSWERS(dmix_ring_free(&ring), 0);
    refuse_client(&client, -EBADF);
    refuse_card(&card, -EBADF);
    refuse_ring(&ring, -EBADF);
}

static void refuse_reader_handles(void)
{
    dmix_ring_t ring = DMIX_CLOSED, plays_alone = DMIX_CLOSED;
    dmix_card_t card = DMIX_CLOSED, other = DMIX_CLOSED;
    dmix_reader_t reader = DMIX_CLOSED;
    ANSWERS(dmix_ring_open(&plays_alone, &other, &params), 0);
    ANSWERS(dmix_reader_open(&reader, &plays_alone), -EIO);
    ANSWERS(dmix_duplex_open(&ring, &other, &params), -EBUSY);
    ANSWERS(dmix_duplex_open(&plays_alone, &card, &params), -EBUSY);
    ANSWERS(dmix_duplex_open((dmix_ring_t *)&card, &card, &params), -EINVAL);
    ANSWERS(dmix_duplex_open(&ring, &card, &params), 0);
    ANSWERS(dmix_reader_open((dmix_reader_t *)&ring, &ring), -EINVAL);
    ANSWERS(dmix_reader_open(&reader, &ring), 0);
    ANSWERS(dmix_reader_open(&reader, &ring), -EBUSY);
    refuse_client((dmix_client_t *)&card, -EBADF);
    refuse_client((dmix_client_t *)&reader, -EBADF);
    refuse_reader((dmix_reader_t *)&card, -EBADF);
    refuse_card((dmix_card_t *)&reader, -EBADF);
    refuse_ring((dmix_ring_t *)&reader, -EBADF);
    ANSWERS(dmix_card_play(&card, samples, 1), -EBADF);
    ANSWERS(dmix_reader_state(&reader), DMIX_STATE_OPEN);
    ANSWERS(dmix_ring_free(&ring), 0);
    ANSWERS(dmix_reader_state(&reader), DMIX_STATE_OPEN);
    ANSWERS(dmix_reader_close(&reader), 0);
    refuse_reader(&reader, -EBADF);
    ANSWERS(dmix_card_free(&card), 0);
    refuse_card(&card, -EBADF);
    ANSWERS(dmix_card_free(&other), 0);
    ANSWERS(dmix_ring_free(&plays_alone), 0);
}

/* A ring whose places are all taken, and one whose free place isn't silent: what a client placed there isn't played. */
static void refuse_places(void)
{
    dmix_ring_t ring = DMIX_CLOSED;
    dmix_card_t card = DMIX_CLOSED;
    dmix_client_t clients[PLACES], more = DMIX_CLOSED;
    memset(clients, 0, sizeof clients);
    ANSWERS(dmix_ring_open(&ring, &card, &params), 0);
    for (int place = 0; place < PLACES; place++)
        ANSWERS(dmix_client_open(&clients[place], &ring), 0);
    ANSWERS(dmix_client_open(&more, &ring), -EAGAIN);
    refuse_client(&more, -EBADF);
    ANSWERS(dmix_hw_params(&clients[0], &hw), 0);
    ANSWERS(dmix_writei(&clients[0], samples, 1), 1);
    ANSWERS(dmix_client_close(&clients[0]), 0);
    ANSWERS(dmix_client_open(&more, &ring), -EAGAIN);
    ANSWERS(dmix_card_play(&card, samples, PERIOD), PERIOD);
    ANSWERS(dmix_client_open(&more, &ring), -EAGAIN);
    ANSWERS(dmix_card_play(&card, samples, 1), 1);
    ANSWERS(dmix_client_open(&more, &ring), 0);
    /* the ring first, and the card last: what is open goes on */
    ANSWERS(dmix_ring_free(&ring), 0);
    ANSWERS(dmix_client_close(&more), 0);
    ANSWERS(dmix_client_close(&clients[1]), 0);
    ANSWERS(dmix_card_free(&card), 0);
}

static void refuse_ring_params(void)
{
    dmix_ring_t ring = DMIX_CLOSED;
    dmix_card_t card = DMIX_CLOSED;
    const dmix_ring_params_t bad[] = {
        { 0, 48000, PERIOD, RING, PLACES },    { 9, 48000, PERIOD, RING, PLACES },    { 2, 0, PERIOD, RING, PLACES },
        { 2, 48000, 0, RING, PLACES },         { 2, 48000, RING, RING, PLACES },      { 2, 48000, 32, 63, PLACES },
        { 2, 48000, PERIOD, 16385, PLACES },   { 2, 48000, PERIOD, RING, 0 },         { 2, 48000, PERIOD, RING, 65 },
    };
    for (size_t i = 0; i < sizeof bad / sizeof *bad; i++) {
        ANSWERS(dmix_ring_open(&ring, &card, &bad[i]), -EINVAL);
        ANSWERS(dmix_duplex_open(&ring, &card, &bad[i]), -EINVAL);
    }
    refuse_ring(&ring, -EBADF);
    refuse_card(&card, -EBADF);
}

static void refuse_params(dmix_client_t *client)
{
    const dmix_hw_params_t bad[] = {
        { 0, 48000, PERIOD, 512 }, { 3, 48000, PERIOD, 512 }, { 9, 48000, PERIOD, 512 }, { 2, 44100, PERIOD, 512 },
        { 2, 48000, 0, 512 },      { 2, 48000, 513, 512 },    { 2, 48000, PERIOD, 16385 },
    };
    const uint32_t twice[2] = { 1, 1 }, none[2] = { 0, 2 }, one[1] = { 0 };
    const dmix_sw_params_t bad_sw[] = { { 0, 1, 1 }, { 1, 0, 1 }, { 1, 1, 0 }, { UINT64_MAX, 1, 1 }, { 1, UINT64_MAX, 1 } };
    for (size_t i = 0; i < sizeof bad / sizeof *bad; i++)
        ANSWERS(dmix_hw_params(client, &bad[i]), -EINVAL);
    ANSWERS(dmix_hw_params_bindings(client, &hw, twice, 2), -EINVAL);
    ANSWERS(dmix_hw_params_bindings(client, &hw, none, 2), -EINVAL);
    ANSWERS(dmix_hw_params_bindings(client, &hw, one, 1), -EINVAL);
    ANSWERS(dmix_hw_params_bindings(client, &hw, one, 0), -EINVAL);
    ANSWERS(dmix_hw_params_bindings(client, &hw, one, 9), -EINVAL);
    ANSWERS(dmix_sw_params(client, &sw), -EBADFD);
    ANSWERS(dmix_writei(client, samples, 1), -EBADFD);
    ANSWERS(dmix_state(client), DMIX_STATE_OPEN);
    ANSWERS(dmix_hw_params(client, &hw), 0);
    for (size_t i = 0; i < sizeof bad_sw / sizeof *bad_sw; i++)
        ANSWERS(dmix_sw_params(client, &bad_sw[i]), -EINVAL);
    ANSWERS(dmix_sw_params(client, &sw), 0);
}

static void refuse_states(dmix_client_t *client, dmix_card_t *card)
{
    dmix_status_t status;
    ANSWERS(dmix_start(client), -EPIPE);
    ANSWERS(dmix_pause(client, true), -EBADFD);
    ANSWERS(dmix_writei(client, samples, DMIX_FRAMES_MOST + 1), -EINVAL);
    ANSWERS(dmix_c_writei(client, samples, 3), -EINVAL);
    ANSWERS(dmix_state(client), DMIX_STATE_PREPARED);
    ANSWERS(dmix_writei(client, samples, PERIOD), PERIOD);
    ANSWERS(dmix_hw_params(client, &hw), -EBADFD);
    ANSWERS(dmix_delay(client), 2 * PERIOD);
    ANSWERS(dmix_avail_update(client), RING / 2 - PERIOD);
    ANSWERS(dmix_rewindable(client), PERIOD);
    ANSWERS(dmix_rewind(client, 8), 8);
    ANSWERS(dmix_delay(client), 2 * PERIOD - 8);
    ANSWERS(dmix_rewind(client, PERIOD - 16), PERIOD - 16);
    ANSWERS(dmix_writei(client, samples, PERIOD - 8), PERIOD - 8);
    ANSWERS(dmix_pause(client, true), 0);
    ANSWERS(dmix_writei(client, samples, 1), -EBADFD);
    ANSWERS(dmix_pause(client, false), 0);
    ANSWERS(dmix_state(client), DMIX_STATE_PREPARED);
    ANSWERS(dmix_writei(client, samples, PERIOD), PERIOD);
    for (int i = 0; i < RING / PERIOD; i++)
        ANSWERS(dmix_card_play(card, samples, PERIOD), PERIOD);
    ANSWERS(dmix_avail_update(client), -EPIPE);
    ANSWERS(dmix_writei(client, samples, 1), -EPIPE);
    ANSWERS(dmix_status(client, &status), 0);
    ANSWERS((int64_t)status.state, DMIX_STATE_XRUN);
    ANSWERS((int64_t)status.avail, 0);
    ANSWERS((int64_t)status.position, RING);
    ANSWERS(dmix_prepare(client), 0);
    ANSWERS(dmix_writei(client, samples, 1), 1);
    ANSWERS(dmix_card_unplug(card), 0);
    ANSWERS(dmix_writei(client, samples, 1), -ENODEV);
    ANSWERS(dmix_prepare(client), -ENODEV);
    ANSWERS(dmix_state(client), DMIX_STATE_DISCONNECTED);
}

/* A prepared client that is full waits for its start, and one that was dropped starts after what it placed. */
static void fill_up(dmix_client_t *client)
{
    const dmix_sw_params_t waits = { RING, RING / 2, PERIOD };
    ANSWERS(dmix_hw_params(client, &hw), 0);
    ANSWERS(dmix_sw_params(client, &waits), 0);
    ANSWERS(dmix_writei(client, samples, RING / 4), RING / 4);
    ANSWERS(dmix_writei(client, samples, RING / 4), RING / 4);
    ANSWERS(dmix_writei(client, samples, 1), 0);
    ANSWERS(dmix_state(client), DMIX_STATE_PREPARED);
    ANSWERS(dmix_start(client), 0);
    ANSWERS(dmix_writei(client, samples, 1), -EAGAIN);
    ANSWERS(dmix_drop(client), 0);
    ANSWERS(dmix_prepare(client), 0);
    ANSWERS(dmix_writei(client, samples, PERIOD), PERIOD);
    ANSWERS(dmix_start(client), 0);
    ANSWERS(dmix_delay(client), PERIOD + RING / 2 + PERIOD);
}

/* In PAUSED the numbers are by the last load, and a drain ends in whichever call finds that all is played. */
static void drain(dmix_client_t *client, dmix_card_t *card)
{
    ANSWERS(dmix_pause(client, true), 0);
    ANSWERS(dmix_card_play(card, samples, PERIOD), PERIOD);
    ANSWERS(dmix_delay(client), PERIOD + RING / 2 + PERIOD);
    ANSWERS(dmix_drop(client), 0);
    ANSWERS(dmix_prepare(client), 0);
    ANSWERS(dmix_writei(client, samples, PERIOD), PERIOD);
    ANSWERS(dmix_drain(client), -EAGAIN);
    ANSWERS(dmix_state(client), DMIX_STATE_DRAINING);
    ANSWERS(dmix_delay(client), RING / 2 + 2 * PERIOD);
    for (int i = 0; i < RING / 2 / PERIOD + 2; i++)
        ANSWERS(dmix_card_play(card, samples, PERIOD), PERIOD);
    ANSWERS(dmix_avail_update(client), RING / 2);
    ANSWERS(dmix_state(client), DMIX_STATE_SETUP);
    ANSWERS(dmix_avail_update(client), -EBADFD);
    ANSWERS(dmix_drain(client), 0);
}

/* A client that takes all of its frames back is an underrun with its next load. */
static void rewind_all(dmix_client_t *client)
{
    ANSWERS(dmix_sw_params(client, &sw), 0);
    ANSWERS(dmix_prepare(client), 0);
    ANSWERS(dmix_writei(client, samples, PERIOD), PERIOD);
    ANSWERS(dmix_rewind(client, PERIOD + 5), PERIOD);
    ANSWERS(dmix_state(client), DMIX_STATE_RUNNING);
    ANSWERS(dmix_writei(client, samples, 1), -EPIPE);
    ANSWERS(dmix_state(client), DMIX_STATE_XRUN);
}

static void count_frames(void)
{
    dmix_ring_t ring = DMIX_CLOSED;
    dmix_card_t card = DMIX_CLOSED;
    dmix_client_t client = DMIX_CLOSED;
    ANSWERS(dmix_ring_open(&ring, &card, &params), 0);
    ANSWERS(dmix_client_open(&client, &ring), 0);
    fill_up(&client);
    drain(&client, &card);
    rewind_all(&client);
    ANSWERS(dmix_client_close(&client), 0);
    ANSWERS(dmix_card_free(&card), 0);
    ANSWERS(dmix_ring_free(&ring), 0);
}

static void refuse_reader_params(dmix_reader_t *reader)
{
    const dmix_hw_params_t bad[] = {
        { 0, 48000, PERIOD, 512 }, { 3, 48000, PERIOD, 512 }, { 9, 48000, PERIOD, 512 }, { 2, 44100, PERIOD, 512 },
        { 2, 48000, 0, 512 },      { 2, 48000, 513, 512 },    { 2, 48000, PERIOD, 16385 },
    };
    const uint32_t twice[2] = { 1, 1 }, none[2] = { 0, 2 }, one[1] = { 0 };
    const dmix_sw_params_t bad_sw[] = { { 0, 1, 1 }, { 1, 0, 1 }, { 1, 1, 0 }, { UINT64_MAX, 1, 1 }, { 1, UINT64_MAX, 1 } };
    for (size_t i = 0; i < sizeof bad / sizeof *bad; i++)
        ANSWERS(dmix_reader_hw_params(reader, &bad[i]), -EINVAL);
    ANSWERS(dmix_reader_hw_params_bindings(reader, &hw, twice, 2), -EINVAL);
    ANSWERS(dmix_reader_hw_params_bindings(reader, &hw, none, 2), -EINVAL);
    ANSWERS(dmix_reader_hw_params_bindings(reader, &hw, one, 1), -EINVAL);
    ANSWERS(dmix_reader_hw_params_bindings(reader, &hw, one, 0), -EINVAL);
    ANSWERS(dmix_reader_hw_params_bindings(reader, &hw, one, 9), -EINVAL);
    ANSWERS(dmix_reader_sw_params(reader, &sw), -EBADFD);
    ANSWERS(dmix_reader_start(reader), -EBADFD);
    ANSWERS(dmix_reader_readi(reader, samples, 1), -EBADFD);
    ANSWERS(dmix_reader_state(reader), DMIX_STATE_OPEN);
    ANSWERS(dmix_reader_hw_params(reader, &hw), 0);
    for (size_t i = 0; i < sizeof bad_sw / sizeof *bad_sw; i++)
        ANSWERS(dmix_reader_sw_params(reader, &bad_sw[i]), -EINVAL);
    ANSWERS(dmix_reader_state(reader), DMIX_STATE_PREPARED);
}

static void run_periods(dmix_card_t *card, int count)
{
    for (int i = 0; i < count; i++)
        ANSWERS(dmix_card_run(card, microphone, samples, PERIOD), PERIOD);
}

static void want_status(dmix_reader_t *reader, int64_t state, int64_t avail, int64_t position)
{
    dmix_status_t status;
    ANSWERS(dmix_reader_status(reader, &status), 0);
    ANSWERS((int64_t)status.state, state);
    ANSWERS((int64_t)status.avail, avail);
    ANSWERS((int64_t)status.delay, avail);
    ANSWERS((int64_t)status.position, position);
}

/* A reader that waits for its start, and reads the first period. */
static void refuse_reads(dmix_reader_t *reader, dmix_card_t *card)
{
    const dmix_sw_params_t starts_at_two = { 2, RING / 2, PERIOD };
    ANSWERS(dmix_reader_sw_params(reader, &starts_at_two), 0);
    ANSWERS(dmix_reader_avail_update(reader), 0);
    ANSWERS(dmix_reader_readi(reader, samples, DMIX_FRAMES_MOST + 1), -EINVAL);
    ANSWERS(dmix_c_reader_readi(reader, samples, 3), -EINVAL);
    ANSWERS(dmix_reader_readi(reader, samples, 0), 0);
    ANSWERS(dmix_reader_readi(reader, samples, 1), -EAGAIN);
    want_status(reader, DMIX_STATE_PREPARED, 0, 0);
    ANSWERS(dmix_card_run(card, microphone, microphone, 1), -EINVAL);
    ANSWERS(dmix_card_run(card, microphone, microphone + 1, 1), -EINVAL);
    ANSWERS(dmix_card_run(card, microphone, samples, DMIX_FRAMES_MOST + 1), -EINVAL);
    ANSWERS(dmix_c_card_run(card, microphone, 4, samples, 2), -EINVAL);
    ANSWERS(dmix_c_card_run(card, microphone, 3, samples, 3), -EINVAL);
    ANSWERS(dmix_reader_start(reader), 0);
    ANSWERS(dmix_reader_start(reader), -EBADFD);
    ANSWERS(dmix_reader_hw_params(reader, &hw), -EBADFD);
    ANSWERS(dmix_reader_hw_free(reader), -EBADFD);
    ANSWERS(dmix_reader_readi(reader, samples, 1), -EAGAIN);
    run_periods(card, 1);
    want_status(reader, DMIX_STATE_RUNNING, PERIOD, PERIOD);
    ANSWERS(dmix_reader_delay(reader), PERIOD);
    ANSWERS(dmix_reader_readi(reader, samples, 2 * PERIOD), PERIOD);
    ANSWERS(memcmp(samples, microphone, PERIOD * 2 * sizeof *samples), 0);
    ANSWERS(dmix_reader_readi(reader, samples, 1), -EAGAIN);
}

/* Both overruns of a reader, and a card that is gone. */
static void refuse_overruns(dmix_reader_t *reader, dmix_card_t *card)
{
    const dmix_sw_params_t never_stops = { 1, 1 << 20, PERIOD };
    run_periods(card, RING / 2 / PERIOD);
    ANSWERS(dmix_reader_avail_update(reader), -EPIPE);
    ANSWERS(dmix_reader_readi(reader, samples, 1), -EPIPE);
    want_status(reader, DMIX_STATE_XRUN, 0, PERIOD + RING / 2);
    ANSWERS(dmix_reader_start(reader), -EBADFD);
    ANSWERS(dmix_reader_prepare(reader), 0);
    ANSWERS(dmix_reader_sw_params(reader, &never_stops), 0);
    ANSWERS(dmix_reader_start(reader), 0);
    run_periods(card, 2 * RING / PERIOD);
    ANSWERS(dmix_reader_avail_update(reader), 2 * RING);
    ANSWERS(dmix_reader_readi(reader, samples, 1), -EPIPE);
    ANSWERS(dmix_reader_state(reader), DMIX_STATE_XRUN);
    ANSWERS(dmix_reader_drop(reader), 0);
    ANSWERS(dmix_reader_state(reader), DMIX_STATE_SETUP);
    ANSWERS(dmix_reader_start(reader), -EBADFD);
    ANSWERS(dmix_reader_prepare(reader), 0);
    ANSWERS(dmix_reader_start(reader), 0);
    ANSWERS(dmix_card_unplug(card), 0);
    ANSWERS(dmix_reader_readi(reader, samples, 1), -ENODEV);
    ANSWERS(dmix_reader_prepare(reader), -ENODEV);
    ANSWERS(dmix_reader_hw_params(reader, &hw), -ENODEV);
    ANSWERS(dmix_reader_state(reader), DMIX_STATE_DISCONNECTED);
}

static void refuse_with_capture(void)
{
    dmix_ring_t ring = DMIX_CLOSED;
    dmix_card_t card = DMIX_CLOSED;
    dmix_reader_t reader = DMIX_CLOSED;
    for (int i = 0; i < PERIOD * 8; i++)
        microphone[i] = (int16_t)(i + 1);
    ANSWERS(dmix_duplex_open(&ring, &card, &params), 0);
    ANSWERS(dmix_reader_open(&reader, &ring), 0);
    refuse_reader_params(&reader);
    refuse_reads(&reader, &card);
    refuse_overruns(&reader, &card);
    ANSWERS(dmix_reader_close(&reader), 0);
    ANSWERS(dmix_card_free(&card), 0);
    ANSWERS(dmix_ring_free(&ring), 0);
}

static void refuse_with_playback(void)
{
    dmix_ring_t ring = DMIX_CLOSED;
    dmix_card_t card = DMIX_CLOSED;
    dmix_client_t client = DMIX_CLOSED;
    ANSWERS(dmix_ring_open(&ring, &card, &params), 0);
    ANSWERS(dmix_client_open(&client, &ring), 0);
    refuse_params(&client);
    refuse_states(&client, &card);
    ANSWERS(dmix_client_close(&client), 0);
    ANSWERS(dmix_card_free(&card), 0);
    ANSWERS(dmix_ring_free(&ring), 0);
}

int main(void)
{
    refuse_null();
    refuse_null_handles();
    refuse_closed_handles();
    refuse_handles();
    refuse_reader_handles();
    refuse_places();
    refuse_ring_params();
    refuse_with_playback();
    refuse_with_capture();
    count_frames();
    printf("refusals: each call answered as it has to\n");
    return 0;
}
