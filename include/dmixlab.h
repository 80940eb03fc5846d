/** @file dmixlab.h
 * A mix ring, and a capture ring, for the threads of one process: what ALSA's dmix and dsnoop do between programs, inside of one.
 *
 * Several threads each have a client, a playback stream as `snd_pcm_t`, and write interleaved frames of 16 bits. One thread, a
 * sound card's callback or loop, takes whole mixed frames from the card. Each sample that the card takes is the sum of exactly the
 * samples that the clients placed there, saturated once, at the end.
 *
 * A ring can capture too: then the card's thread also hands over what the sound card captured, and any number of readers, capture
 * streams as `snd_pcm_t`, each read all of it.
 *
 *     const dmix_ring_params_t params = { 2, 48000, 256, 2048, 16 };  // channels, rate, period, buffer, clients
 *     const dmix_hw_params_t   hw     = { 2, 48000, 256, 1024 };      // channels, rate, period, buffer
 *     dmix_ring_t   ring   = DMIX_CLOSED;
 *     dmix_card_t   card   = DMIX_CLOSED;
 *     dmix_client_t client = DMIX_CLOSED;
 *
 *     dmix_ring_open(&ring, &card, &params);
 *     dmix_client_open(&client, &ring);
 *     dmix_hw_params(&client, &hw);
 *     n = dmix_writei(&client, buffer, frames);         // any thread
 *     n = dmix_card_play(&card, buffer, frames);        // the card's thread
 *     dmix_client_close(&client);
 *     dmix_card_free(&card);
 *     dmix_ring_free(&ring);
 *
 * With capture, dmix_duplex_open is in the place of dmix_ring_open, and dmix_card_run in that of dmix_card_play:
 *
 *     dmix_reader_t reader = DMIX_CLOSED;
 *
 *     dmix_reader_open(&reader, &ring);
 *     dmix_reader_hw_params(&reader, &hw);
 *     dmix_reader_start(&reader);
 *     n = dmix_reader_readi(&reader, buffer, frames);   // any thread
 *     n = dmix_card_run(&card, microphone, loudspeaker, frames);
 *     dmix_reader_close(&reader);
 *
 * ## Answers
 *
 * A call answers 0 or a number of frames, or a negative number: an error of errno.h with a minus sign, as alsa-lib's calls do, so
 * `strerror((int)-answer)` says what it is. No call answers -EINTR. A call tests in this order, and its comment lists what this list
 * doesn't say:
 *
 * 1. -EFAULT: a pointer is null;
 * 2. -EINVAL: both handles are one, frames or bindings are more than a call takes, or buffers have a part in common;
 * 3. -EBUSY: a handle that is to be opened is open; -EBADF: another one is closed, or stands for something else (a card that is passed as
 *    a client);
 * 4. of a client's or a reader's call, what the state table says before the call does anything: -ENODEV in DISCONNECTED; -EPIPE in XRUN,
 *    of the calls that move frames or count them (dmix_writei, dmix_avail_update, dmix_delay, dmix_rewindable, dmix_rewind, and those of
 *    a reader); and -EBADFD in another state that its comment doesn't name;
 * 5. -EINVAL: another argument is out of its range.
 *
 * After each of these nothing has changed. Then the call does its work: -ENODEV leaves DISCONNECTED then, -EPIPE leaves XRUN, and after
 * other errors nothing has changed, unless the comment says otherwise.
 *
 * ## Handles
 *
 * A handle is a struct in your memory, as zlib's z_stream. It is closed while all of it is zero (DMIX_CLOSED); an open call makes
 * it stand for something. The fields are the library's: don't write them. Don't use a copy of a handle. To move one, copy it and close
 * the old one without a call:
 *
 *     other = client;
 *     client = (dmix_client_t)DMIX_CLOSED;              // in C++: client = dmix_client_t DMIX_CLOSED;
 *
 * Ring, card, clients and readers may be closed in any order.
 *
 * ## Threads
 *
 * A handle may be used in any thread, by one call at a time. Different handles may be used at the same time in different threads,
 * also those of one ring: a client and another client, a client and the card, dmix_client_open with the ring and a write of a client
 * that is open. Only dmix_ring_open, dmix_duplex_open, dmix_client_open and dmix_reader_open use two handles, which are different
 * ones.
 *
 * What passes a handle from one thread to another has to make the call in the one happen before the call in the other: a mutex, the start
 * or the join of a thread, or an atomic that is stored and loaded with seq_cst.
 *
 * No call waits, takes a lock or enters the kernel, but that malloc and free do so where a comment says 'allocates' or 'frees'. So
 * dmix_writei, dmix_card_play, dmix_card_run and every call without these words can be made in a real-time callback.
 *
 * ## What you owe
 *
 * Nothing tests that
 *
 * - a pointer that isn't null points to what its type says: a handle that is DMIX_CLOSED or as this library left it, parameters that
 *   are set, and a buffer, aligned as int16_t, of as many samples as you say;
 * - a handle is in one call at a time, and calls in several threads are ordered as above;
 * - no call is made in a signal handler, or in a child of fork() of a process with threads;
 * - what is opened is closed: where the memory of an open client is given up without, its place is lost until the process ends.
 *
 * All else is tested: lengths, ranges and states give an error.
 *
 * ## Memory
 *
 * The words of a ring, 8 bytes for each of its frames and channels, and as many again where it captures, stay until the process ends,
 * even after dmix_ring_free. That matters to a program that opens ring after ring: let it open one for each device, and keep it.
 * Everything else is given back.
 *
 * ## Not as alsa-lib
 *
 * - Samples are of 16 bits (int16_t), interleaved, and the rate is exactly the ring's: nothing near is chosen. Neither a ring nor a stream
 *   can be asked for its parameters: keep them.
 * - Nothing blocks, and there are no snd_pcm_wait and no poll descriptors: after -EAGAIN sleep for a part of a period, or let the card's
 *   callback wake you.
 * - The first frame is one period past the position, and not at it. dmix_start with nothing written is -EPIPE.
 * - A frame that came too late is -EPIPE, where dmix skips it without a word, and so is a frame that was stored over before a reader read
 *   it. No stop threshold rules this out.
 * - A prepared client that is full takes 0 frames, without -EAGAIN.
 * - The calls that count frames (dmix_avail_update, dmix_delay) also place what is pending. dmix_delay answers the number, and never one
 *   below 0.
 * - Clients can't be linked (snd_pcm_link): what has to begin in one frame goes into one client.
 * - There are no snd_pcm_forward, _reset, _resume, _recover, _writen, _readn and mmap; a reader has no drain, pause and rewind.
 *
 * docs/SCRIPTS.md has a table of such differences, call by call.
 *
 * ## Proved and not proved
 *
 * The functions dmix_c_... are compiled from proved code; what each does to what a handle stands for, and when it gives which answer,
 * is part of their contracts. The functions without the c_ are C: they test null pointers, turn frames into samples, and call these.
 * Nothing is proved of time: that a thread runs, that a client is in time, or how long a call takes.
 */
#ifndef DMIXLAB_H
#define DMIXLAB_H

#include <errno.h>
#include <stdbool.h>
#include <stddef.h>
#include <stdint.h>

#ifdef __cplusplus
extern "C" {
#endif

/** The version of this header, which is the library's and pkg-config's. */
#define DMIXLAB_VERSION "0.1.0"

/** A number of frames, or an error (snd_pcm_sframes_t). */
typedef int64_t dmix_sframes_t;
/** A number of frames (snd_pcm_uframes_t). */
typedef uint64_t dmix_uframes_t;

/** A ring: the places that clients have, one each. */
typedef struct dmix_ring {
    uint64_t kind_;
    void *held_;
    uint64_t channels_;
} dmix_ring_t;

/** The card of a ring: it takes the mixed frames. */
typedef struct dmix_card {
    uint64_t kind_;
    void *held_;
    uint64_t channels_;
} dmix_card_t;

/** A client at a place of a ring: a playback stream (snd_pcm_t). */
typedef struct dmix_client {
    uint64_t kind_;
    void *held_;
    uint64_t channels_;
} dmix_client_t;

/** A reader of a ring that captures: a capture stream (snd_pcm_t). */
typedef struct dmix_reader {
    uint64_t kind_;
    void *held_;
    uint64_t channels_;
} dmix_reader_t;

/** A handle that is closed. */
#define DMIX_CLOSED { 0, NULL, 0 }

/** What a ring is made of. */
typedef struct dmix_ring_params {
    uint32_t channels;    /**< of the card: 1 to 8 */
    uint32_t rate;        /**< in Hz, at least 1; a client has the same */
    uint32_t period_size; /**< in frames, 1 to buffer_size - 1: the card publishes its position at each multiple of it, and a client
                               starts one period past the position */
    uint32_t buffer_size; /**< in frames, 64 to 16384 */
    uint32_t clients;     /**< how many can be open at a time: 1 to 64 */
} dmix_ring_params_t;

/** Hardware parameters of a client or a reader (snd_pcm_hw_params_t). */
typedef struct dmix_hw_params {
    uint32_t channels;    /**< 1 to the card's */
    uint32_t rate;        /**< in Hz: the ring's */
    uint32_t period_size; /**< in frames: 1 to buffer_size */
    uint32_t buffer_size; /**< in frames: 1 to 16384. Frames of a client that the ring has no room for yet are placed by a later
                               call. A reader has no buffer of its own: it is how many unread frames are an overrun, unless
                               dmix_reader_sw_params says another number */
} dmix_hw_params_t;

/** Software parameters of a client or a reader, in frames (snd_pcm_sw_params_t). The calls that set the hardware parameters set these
 * to 1, buffer_size and period_size. */
typedef struct dmix_sw_params {
    uint64_t start_threshold; /**< a prepared client starts by the write with which so many are written, and a reader by a read of so
                                   many; at least 1 */
    uint64_t stop_threshold;  /**< a running client or reader is in XRUN when so many are available; at least 1 */
    uint64_t avail_min;       /**< at least 1; no call waits for it */
} dmix_sw_params_t;

/** What a client or a reader is at a moment (snd_pcm_status_t). */
typedef struct dmix_status {
    uint64_t state;    /**< a dmix_state_t */
    uint64_t avail;    /**< frames that a write can take, or that a read can give */
    uint64_t delay;    /**< frames that are played before the one that is written next; of a reader `avail` again */
    uint64_t position; /**< the card's frame number that was loaded last; 0 before the first load. While a reader runs, the frame
                            that it reads next is `position - avail` */
} dmix_status_t;

/** The state of a client or a reader, numbered as snd_pcm_state_t. A reader is never DRAINING or PAUSED. */
typedef enum dmix_state {
    DMIX_STATE_OPEN = 0,        /**< without hardware parameters */
    DMIX_STATE_SETUP = 1,       /**< with them, and not prepared */
    DMIX_STATE_PREPARED = 2,    /**< ready to start */
    DMIX_STATE_RUNNING = 3,
    DMIX_STATE_XRUN = 4,        /**< an underrun, or a reader's overrun: dmix_prepare, or dmix_reader_prepare, leads out */
    DMIX_STATE_DRAINING = 5,    /**< plays what is left */
    DMIX_STATE_PAUSED = 6,
    DMIX_STATE_DISCONNECTED = 8 /**< the card is gone */
} dmix_state_t;

/* The proved functions. Use those below: these ask that no pointer is null, that two handles are different ones, and that buffers have no
 * part in common, and count samples. */

int64_t dmix_c_ring_open(dmix_ring_t *ring, dmix_card_t *card, const dmix_ring_params_t *params);
int64_t dmix_c_duplex_open(dmix_ring_t *ring, dmix_card_t *card, const dmix_ring_params_t *params);
int64_t dmix_c_ring_free(dmix_ring_t *ring);
int64_t dmix_c_card_play(dmix_card_t *card, int16_t *out, size_t samples);
int64_t dmix_c_card_run(dmix_card_t *card, const int16_t *captured, size_t captured_samples, int16_t *out, size_t samples);
int64_t dmix_c_card_unplug(dmix_card_t *card);
int64_t dmix_c_card_free(dmix_card_t *card);
int64_t dmix_c_client_open(dmix_client_t *client, dmix_ring_t *ring);
int64_t dmix_c_client_close(dmix_client_t *client);
int64_t dmix_c_hw_params(dmix_client_t *client, const dmix_hw_params_t *params);
int64_t dmix_c_hw_params_bindings(dmix_client_t *client, const dmix_hw_params_t *params, const uint32_t *bindings, size_t count);
int64_t dmix_c_hw_free(dmix_client_t *client);
int64_t dmix_c_sw_params(dmix_client_t *client, const dmix_sw_params_t *params);
int64_t dmix_c_prepare(dmix_client_t *client);
int64_t dmix_c_start(dmix_client_t *client);
int64_t dmix_c_drop(dmix_client_t *client);
int64_t dmix_c_drain(dmix_client_t *client);
int64_t dmix_c_pause(dmix_client_t *client, bool enable);
int64_t dmix_c_state(dmix_client_t *client);
int64_t dmix_c_status(dmix_client_t *client, dmix_status_t *status);
int64_t dmix_c_writei(dmix_client_t *client, const int16_t *samples, size_t count);
int64_t dmix_c_avail_update(dmix_client_t *client);
int64_t dmix_c_delay(dmix_client_t *client);
int64_t dmix_c_rewindable(dmix_client_t *client);
int64_t dmix_c_rewind(dmix_client_t *client, uint64_t frames);
int64_t dmix_c_reader_open(dmix_reader_t *reader, dmix_ring_t *ring);
int64_t dmix_c_reader_close(dmix_reader_t *reader);
int64_t dmix_c_reader_hw_params(dmix_reader_t *reader, const dmix_hw_params_t *params);
int64_t dmix_c_reader_hw_params_bindings(dmix_reader_t *reader, const dmix_hw_params_t *params, const uint32_t *bindings,
                                         size_t count);
int64_t dmix_c_reader_hw_free(dmix_reader_t *reader);
int64_t dmix_c_reader_sw_params(dmix_reader_t *reader, const dmix_sw_params_t *params);
int64_t dmix_c_reader_prepare(dmix_reader_t *reader);
int64_t dmix_c_reader_start(dmix_reader_t *reader);
int64_t dmix_c_reader_drop(dmix_reader_t *reader);
int64_t dmix_c_reader_state(dmix_reader_t *reader);
int64_t dmix_c_reader_status(dmix_reader_t *reader, dmix_status_t *status);
int64_t dmix_c_reader_readi(dmix_reader_t *reader, int16_t *samples, size_t count);
int64_t dmix_c_reader_avail_update(dmix_reader_t *reader);

/** The most frames that a call moves. */
#define DMIX_FRAMES_MOST 4194304u

/** @name The ring and its card @{ */

/** Opens a ring and its card, which plays alone (dmix_card_play). Allocates.
 *
 * Both handles are closed before; after 0 both are open. The ring has `params->clients` places, all free, and begins at frame 0, with
 * nothing placed.
 *
 * @return 0; -EINVAL: a parameter isn't in its range, or both pointers are one; -EBUSY: a handle is open; -ENOMEM */
static inline int64_t dmix_ring_open(dmix_ring_t *ring, dmix_card_t *card, const dmix_ring_params_t *params)
{
    if (!ring || !card || !params)
        return -EFAULT;
    if ((void *)ring == (void *)card)
        return -EINVAL;
    return dmix_c_ring_open(ring, card, params);
}

/** Opens a ring that captures too, and its card, which captures and plays (dmix_card_run). Allocates.
 *
 * Beside what dmix_ring_open does there is a capture ring of `params->buffer_size` frames, of which readers are opened.
 *
 * @return as dmix_ring_open */
static inline int64_t dmix_duplex_open(dmix_ring_t *ring, dmix_card_t *card, const dmix_ring_params_t *params)
{
    if (!ring || !card || !params)
        return -EFAULT;
    if ((void *)ring == (void *)card)
        return -EINVAL;
    return dmix_c_duplex_open(ring, card, params);
}

/** Closes a ring. Frees. Its clients, its readers and its card go on, and can be used and closed; none can be opened any more.
 *
 * @return 0 */
static inline int64_t dmix_ring_free(dmix_ring_t *ring)
{
    return ring ? dmix_c_ring_free(ring) : -EFAULT;
}

/** Takes mixed frames (the card's interrupt): each sample is the sum of what the clients placed there, saturated. The position is
 * published at each multiple of the ring's period, and at the end.
 *
 * A card of dmix_duplex_open, whose captured frames have to come along, isn't one for this call: -EBADF.
 *
 * @param buffer room for `frames` frames of the card's channels, interleaved, of int16_t
 * @return `frames`; -EINVAL: more than DMIX_FRAMES_MOST; -EOVERFLOW: the ring has no more frames after 4294967295 laps, and those that it
 * had are in the buffer */
static inline dmix_sframes_t dmix_card_play(dmix_card_t *card, void *buffer, dmix_uframes_t frames)
{
    if (!card || !buffer)
        return -EFAULT;
    if (frames > DMIX_FRAMES_MOST || card->channels_ > 8)
        return -EINVAL;
    return dmix_c_card_play(card, (int16_t *)buffer, (size_t)(frames * card->channels_));
}

/** Hands over captured frames, and takes as many mixed ones (the interrupt of a card that captures and plays): each captured frame is
 * stored for the readers before the mixed one of the same number is taken, as by dmix_card_play. The position is published at each
 * multiple of the ring's period, and at the end, to the clients and then to the readers.
 *
 * A card of dmix_ring_open isn't one for this call: -EBADF.
 *
 * @param captured `frames` frames of the card's channels, interleaved, of int16_t
 * @param played room for `frames` frames, which has no part in common with `captured`
 * @return `frames`; -EINVAL: more than DMIX_FRAMES_MOST, or the buffers have a part in common; -EOVERFLOW: the rings have no more frames
 * after 4294967295 laps, and those that they had are captured and played */
static inline dmix_sframes_t dmix_card_run(dmix_card_t *card, const void *captured, void *played, dmix_uframes_t frames)
{
    if (!card || !captured || !played)
        return -EFAULT;
    if (frames > DMIX_FRAMES_MOST || card->channels_ > 8)
        return -EINVAL;
    const size_t samples = (size_t)(frames * card->channels_), bytes = samples * sizeof(int16_t);
    const uintptr_t from = (uintptr_t)captured, to = (uintptr_t)played;
    if (from < to + bytes && to < from + bytes)
        return -EINVAL;
    return dmix_c_card_run(card, (const int16_t *)captured, samples, (int16_t *)played, samples);
}

/** Unplugs the card: a client or a reader that loads the position from now on is DISCONNECTED, with -ENODEV. What is placed can still be
 * taken.
 *
 * @return 0 */
static inline int64_t dmix_card_unplug(dmix_card_t *card)
{
    return card ? dmix_c_card_unplug(card) : -EFAULT;
}

/** Closes a card. Frees. Nobody takes frames of its ring any more or hands any over, and its clients and readers find a position that
 * stands still.
 *
 * @return 0 */
static inline int64_t dmix_card_free(dmix_card_t *card)
{
    return card ? dmix_c_card_free(card) : -EFAULT;
}

/** @} */
/** @name Clients: opening and parameters @{ */

/** Opens a client (snd_pcm_open) at the lowest place of a ring that is free and silent: its last frame, if there was one, is played.
 * Allocates, and frees what closed clients left. The state is OPEN.
 *
 * The client goes back to its own ring when it is closed, so the ring isn't named then.
 *
 * @return 0; -EAGAIN: no place is free, or none of the free ones is silent yet, so try again a period later; -EBUSY: the client is open;
 * -EINVAL: both pointers are one; -ENOMEM */
static inline int64_t dmix_client_open(dmix_client_t *client, dmix_ring_t *ring)
{
    if (!client || !ring)
        return -EFAULT;
    if ((void *)client == (void *)ring)
        return -EINVAL;
    return dmix_c_client_open(client, ring);
}

/** Closes a client (snd_pcm_close) in any state. Frees. What is pending is discarded, and what it placed in the ring is played:
 * dmix_drain first plays all. Its place is given again once its last frame is played.
 *
 * @return 0 */
static inline int64_t dmix_client_close(dmix_client_t *client)
{
    return client ? dmix_c_client_close(client) : -EFAULT;
}

/** Sets the hardware parameters (snd_pcm_hw_params), with the default software parameters, and prepares: PREPARED, from OPEN, SETUP or
 * PREPARED. Allocates the buffer, and frees the one before. Channel i goes to the card's channel i.
 *
 * @return 0; -EINVAL: a parameter isn't in its range, or the rate isn't the ring's; -ENOMEM */
static inline int64_t dmix_hw_params(dmix_client_t *client, const dmix_hw_params_t *params)
{
    return client && params ? dmix_c_hw_params(client, params) : -EFAULT;
}

/** Sets the hardware parameters in the same way. Channel i goes to the card's channel `bindings[i]` (the `bindings` of a dmix device).
 *
 * @param count how many bindings there are: `params->channels`
 * @return 0; -EINVAL: as above, or a channel is bound to one that the card doesn't have, or two to the same; -ENOMEM */
static inline int64_t dmix_hw_params_bindings(dmix_client_t *client, const dmix_hw_params_t *params, const uint32_t *bindings,
                                              size_t count)
{
    if (!client || !params || !bindings)
        return -EFAULT;
    if (count > 8)
        return -EINVAL;
    return dmix_c_hw_params_bindings(client, params, bindings, count);
}

/** Gives the configuration up (snd_pcm_hw_free): OPEN, from SETUP or PREPARED. The client keeps the buffer's memory until the next
 * dmix_hw_params, or until it is closed.
 *
 * @return 0 */
static inline int64_t dmix_hw_free(dmix_client_t *client)
{
    return client ? dmix_c_hw_free(client) : -EFAULT;
}

/** Sets the software parameters (snd_pcm_sw_params), in every state but OPEN and DISCONNECTED.
 *
 * @return 0; -EINVAL: avail_min is 0, or a threshold is 0 or past the boundary, which is 2^62 or more */
static inline int64_t dmix_sw_params(dmix_client_t *client, const dmix_sw_params_t *params)
{
    return client && params ? dmix_c_sw_params(client, params) : -EFAULT;
}

/** @} */
/** @name Clients: starting and stopping @{ */

/** Prepares (snd_pcm_prepare): PREPARED, from SETUP, PREPARED or XRUN. What is pending is discarded.
 *
 * @return 0 */
static inline int64_t dmix_prepare(dmix_client_t *client)
{
    return client ? dmix_c_prepare(client) : -EFAULT;
}

/** Starts (snd_pcm_start) what is written: RUNNING, from PREPARED. The first frame is one period of the ring past the card's position,
 * or right after the last frame that the client placed before, where that is later: after dmix_drop, what it placed is still played. A
 * write that reaches the start threshold does this by itself.
 *
 * @return 0; -EPIPE: nothing is written, and the state stays, or a frame came too late, and it is XRUN; -ENODEV: the card is gone */
static inline int64_t dmix_start(dmix_client_t *client)
{
    return client ? dmix_c_start(client) : -EFAULT;
}

/** Stops (snd_pcm_drop): SETUP, from every state but OPEN and DISCONNECTED. What is pending is discarded; what is placed in the ring is
 * played, as with ALSA's dmix.
 *
 * @return 0 */
static inline int64_t dmix_drop(dmix_client_t *client)
{
    return client ? dmix_c_drop(client) : -EFAULT;
}

/** Plays what is written, and stops then (snd_pcm_drain): SETUP, from every state but OPEN, PAUSED and DISCONNECTED. It doesn't wait: call
 * it again while it answers -EAGAIN. Each call places what the ring has room for by then.
 *
 * @return 0: all is played, and the state is SETUP; -EAGAIN: it is DRAINING; -EPIPE: a frame came too late; -ENODEV: the card is gone */
static inline int64_t dmix_drain(dmix_client_t *client)
{
    return client ? dmix_c_drain(client) : -EFAULT;
}

/** Pauses a client in RUNNING, or resumes it in PAUSED (snd_pcm_pause). What is placed in the ring is played meanwhile. What is pending
 * begins anew when it is resumed, where dmix_start would begin; with nothing pending it is PREPARED then.
 *
 * @return 0; of a resume -EPIPE: a frame came too late; -ENODEV: the card is gone */
static inline int64_t dmix_pause(dmix_client_t *client, bool enable)
{
    return client ? dmix_c_pause(client, enable) : -EFAULT;
}

/** @} */
/** @name Clients: frames @{ */

/** Writes frames (snd_pcm_writei of a stream with SND_PCM_NONBLOCK), in PREPARED or RUNNING. In PREPARED it starts when the start threshold
 * is reached.
 *
 * A running client first loads the card's position, and places what is pending. Then it takes as many frames as its buffer has room for,
 * and places those that the ring has room for.
 *
 * @param buffer `frames` frames of the client's channels, interleaved, of int16_t
 * @return how many frames were taken, maybe fewer than `frames`: 0 where a prepared client is full and its start threshold isn't reached,
 * so that dmix_start has to start it; -EAGAIN: a running client has no room now, and what was pending is placed; -EPIPE: an underrun, or a
 * frame came too late: none of these frames counts as taken, but those before the late one may be placed, and are played then; the state
 * is XRUN, and dmix_prepare leads out; -ENODEV: the card is gone; -EINVAL: more than DMIX_FRAMES_MOST, or 2^63 frames were taken before */
static inline dmix_sframes_t dmix_writei(dmix_client_t *client, const void *buffer, dmix_uframes_t frames)
{
    if (!client || !buffer)
        return -EFAULT;
    if (frames > DMIX_FRAMES_MOST || client->channels_ > 8)
        return -EINVAL;
    return dmix_c_writei(client, (const int16_t *)buffer, (size_t)(frames * client->channels_));
}

/** Answers how many frames a write can take (snd_pcm_avail), in PREPARED, RUNNING, DRAINING or PAUSED. It may be more than the buffer
 * has.
 *
 * In RUNNING and DRAINING it first loads the card's position and places what is pending; a client in DRAINING that has played all is in
 * SETUP then, and the answer is the buffer size. In PREPARED and PAUSED nothing is loaded or placed, and the number is by the last load; so
 * a card that is gone isn't found there.
 *
 * @return frames; -EPIPE: an underrun, or a frame came too late; -ENODEV: the card is gone */
static inline dmix_sframes_t dmix_avail_update(dmix_client_t *client)
{
    return client ? dmix_c_avail_update(client) : -EFAULT;
}

/** Does the same, and answers how many frames are played before the one that is written next (snd_pcm_delay): in PREPARED all that are
 * written, and 0 where the state is SETUP then.
 *
 * @return as dmix_avail_update */
static inline dmix_sframes_t dmix_delay(dmix_client_t *client)
{
    return client ? dmix_c_delay(client) : -EFAULT;
}

/** Answers how many of the last frames dmix_rewind would take back (snd_pcm_rewindable), in PREPARED or RUNNING: those that aren't played.
 * A frame that was placed where one was taken back from the ring doesn't count, nor do those before it that are placed. In RUNNING the
 * card's position is loaded first; nothing is placed.
 *
 * @return frames; -EPIPE: an underrun; -ENODEV: the card is gone */
static inline dmix_sframes_t dmix_rewindable(dmix_client_t *client)
{
    return client ? dmix_c_rewindable(client) : -EFAULT;
}

/** Takes back the last frames (snd_pcm_rewind), in PREPARED or RUNNING: as many as are asked for, or as dmix_rewindable would answer. Those
 * that wait in the client come first, then those that are placed in the ring, the last one first. The next write continues where they
 * began.
 *
 * After a rewind of all frames that aren't played the client runs on, and with the default stop threshold its next call that loads the
 * position is an underrun, also a write: leave some, or set another threshold before.
 *
 * @return how many frames were taken back; -EPIPE: an underrun, or the card came to one of them first: the state is XRUN, and what was
 * taken back before it isn't played; -ENODEV: the card is gone */
static inline dmix_sframes_t dmix_rewind(dmix_client_t *client, dmix_uframes_t frames)
{
    return client ? dmix_c_rewind(client, frames) : -EFAULT;
}

/** The state (snd_pcm_state), without a load.
 *
 * @return a dmix_state_t */
static inline int64_t dmix_state(dmix_client_t *client)
{
    return client ? dmix_c_state(client) : -EFAULT;
}

/** Tells state, frames and position in one (snd_pcm_status), in every state: it does what dmix_avail_update does, so that it loads the
 * position once, in RUNNING and DRAINING, and places what is pending. What is found, as an underrun, shows in the state. Where
 * dmix_avail_update would answer an error, `avail` and `delay` are 0.
 *
 * @return 0 */
static inline int64_t dmix_status(dmix_client_t *client, dmix_status_t *status)
{
    return client && status ? dmix_c_status(client, status) : -EFAULT;
}

/** @} */
/** @name Readers: their calls are a client's, with reader_ after dmix_ @{ */

/** Opens a reader (snd_pcm_open of a stream for capture) of a ring that captures. Allocates. The state is OPEN.
 *
 * A ring has as many readers as are opened; none takes a place of a client.
 *
 * @return 0; -EIO: the ring captures nothing (dmix_ring_open); -EBUSY: the reader is open; -EINVAL: both pointers are one; -ENOMEM */
static inline int64_t dmix_reader_open(dmix_reader_t *reader, dmix_ring_t *ring)
{
    if (!reader || !ring)
        return -EFAULT;
    if ((void *)reader == (void *)ring)
        return -EINVAL;
    return dmix_c_reader_open(reader, ring);
}

/** Closes a reader (snd_pcm_close) in any state. Frees.
 *
 * @return 0 */
static inline int64_t dmix_reader_close(dmix_reader_t *reader)
{
    return reader ? dmix_c_reader_close(reader) : -EFAULT;
}

/** Sets the hardware parameters (snd_pcm_hw_params), with the default software parameters, and prepares: PREPARED, from OPEN, SETUP or
 * PREPARED. Allocates room for one frame, and frees that before. Channel i is the card's channel i.
 *
 * @return 0; -EINVAL: a parameter isn't in its range, or the rate isn't the ring's; -ENOMEM */
static inline int64_t dmix_reader_hw_params(dmix_reader_t *reader, const dmix_hw_params_t *params)
{
    return reader && params ? dmix_c_reader_hw_params(reader, params) : -EFAULT;
}

/** Sets the hardware parameters in the same way. Channel i is the card's channel `bindings[i]` (the `bindings` of a dsnoop device).
 *
 * @param count how many bindings there are: `params->channels`
 * @return 0; -EINVAL: as above, or a channel is bound to one that the card doesn't have, or two to the same; -ENOMEM */
static inline int64_t dmix_reader_hw_params_bindings(dmix_reader_t *reader, const dmix_hw_params_t *params, const uint32_t *bindings,
                                                     size_t count)
{
    if (!reader || !params || !bindings)
        return -EFAULT;
    if (count > 8)
        return -EINVAL;
    return dmix_c_reader_hw_params_bindings(reader, params, bindings, count);
}

/** Gives the configuration up (snd_pcm_hw_free): OPEN, from SETUP or PREPARED. The reader keeps its memory, as a client does.
 *
 * @return 0 */
static inline int64_t dmix_reader_hw_free(dmix_reader_t *reader)
{
    return reader ? dmix_c_reader_hw_free(reader) : -EFAULT;
}

/** Sets the software parameters (snd_pcm_sw_params), in every state but OPEN and DISCONNECTED.
 *
 * @return 0; -EINVAL: avail_min is 0, or a threshold is 0 or past the boundary, which is 2^62 or more */
static inline int64_t dmix_reader_sw_params(dmix_reader_t *reader, const dmix_sw_params_t *params)
{
    return reader && params ? dmix_c_reader_sw_params(reader, params) : -EFAULT;
}

/** Prepares (snd_pcm_prepare): PREPARED, from SETUP, PREPARED or XRUN.
 *
 * @return 0 */
static inline int64_t dmix_reader_prepare(dmix_reader_t *reader)
{
    return reader ? dmix_c_reader_prepare(reader) : -EFAULT;
}

/** Starts (snd_pcm_start): RUNNING, from PREPARED. The first frame that it reads is the one that the card captures next, by the position
 * that is loaded here. A read that reaches the start threshold does this by itself.
 *
 * @return 0; -ENODEV: the card is gone */
static inline int64_t dmix_reader_start(dmix_reader_t *reader)
{
    return reader ? dmix_c_reader_start(reader) : -EFAULT;
}

/** Stops (snd_pcm_drop): SETUP, from every state but OPEN and DISCONNECTED.
 *
 * @return 0 */
static inline int64_t dmix_reader_drop(dmix_reader_t *reader)
{
    return reader ? dmix_c_reader_drop(reader) : -EFAULT;
}

/** Reads frames (snd_pcm_readi of a stream with SND_PCM_NONBLOCK), in PREPARED or RUNNING. In PREPARED it starts where `frames` reaches the
 * start threshold, and answers -EAGAIN, since nothing is captured since then.
 *
 * @param buffer room for `frames` frames of the reader's channels, interleaved, of int16_t
 * @return how many frames were read, maybe fewer than `frames`; -EAGAIN: none now; -EPIPE: an overrun, since as many frames are unread as
 * the stop threshold says, or a later frame was stored over one of them: the state is XRUN, and dmix_reader_prepare leads out; -ENODEV:
 * the card is gone; -EINVAL: more than DMIX_FRAMES_MOST. After -EAGAIN, -EPIPE and -ENODEV the buffer has nothing of use */
static inline dmix_sframes_t dmix_reader_readi(dmix_reader_t *reader, void *buffer, dmix_uframes_t frames)
{
    if (!reader || !buffer)
        return -EFAULT;
    if (frames > DMIX_FRAMES_MOST || reader->channels_ > 8)
        return -EINVAL;
    return dmix_c_reader_readi(reader, (int16_t *)buffer, (size_t)(frames * reader->channels_));
}

/** Answers how many frames can be read (snd_pcm_avail): in RUNNING by a load of the card's position, and in PREPARED 0, without a load.
 *
 * @return frames; -EPIPE: an overrun; -ENODEV: the card is gone */
static inline dmix_sframes_t dmix_reader_avail_update(dmix_reader_t *reader)
{
    return reader ? dmix_c_reader_avail_update(reader) : -EFAULT;
}

/** Does the same (snd_pcm_delay): the frames that wait to be read are the delay of the one that is captured next.
 *
 * @return as dmix_reader_avail_update */
static inline dmix_sframes_t dmix_reader_delay(dmix_reader_t *reader)
{
    return dmix_reader_avail_update(reader);
}

/** The state (snd_pcm_state), without a load.
 *
 * @return a dmix_state_t */
static inline int64_t dmix_reader_state(dmix_reader_t *reader)
{
    return reader ? dmix_c_reader_state(reader) : -EFAULT;
}

/** Tells state, frames and position in one (snd_pcm_status), in every state: it does what dmix_reader_avail_update does, so that it loads
 * the position once, in RUNNING. What is found, as an overrun, shows in the state. Where dmix_reader_avail_update would answer an error,
 * `avail` and `delay` are 0.
 *
 * @return 0 */
static inline int64_t dmix_reader_status(dmix_reader_t *reader, dmix_status_t *status)
{
    return reader && status ? dmix_c_reader_status(reader, status) : -EFAULT;
}

/** The name of a state in capitals (snd_pcm_state_name). */
static inline const char *dmix_state_name(int64_t state)
{
    switch (state) {
    case DMIX_STATE_OPEN: return "OPEN";
    case DMIX_STATE_SETUP: return "SETUP";
    case DMIX_STATE_PREPARED: return "PREPARED";
    case DMIX_STATE_RUNNING: return "RUNNING";
    case DMIX_STATE_XRUN: return "XRUN";
    case DMIX_STATE_DRAINING: return "DRAINING";
    case DMIX_STATE_PAUSED: return "PAUSED";
    case DMIX_STATE_DISCONNECTED: return "DISCONNECTED";
    default: return "no state";
    }
}

/** @} */

#ifdef __cplusplus
}
#endif

#endif
