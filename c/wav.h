/* WAV files of 16 bits: read whole, and written head first. */
#ifndef WAV_H
#define WAV_H

#include <stdbool.h>
#include <stdint.h>
#include <stdio.h>
#include <stdlib.h>
#include <string.h>

/* A sound: interleaved samples of so many frames. */
struct wav {
    int16_t *samples;
    uint64_t frames;
    uint32_t channels, rate;
};

static inline uint32_t wav_number(const unsigned char *bytes, int count)
{
    uint32_t number = 0;
    while (count--)
        number = number << 8 | bytes[count];
    return number;
}

/* Goes to the end of a chunk of so many bytes, of which some are read. A chunk has an even number of bytes in the file. */
static inline bool wav_skip(FILE *file, uint32_t size, long read)
{
    return fseek(file, (long)size + size % 2 - read, SEEK_CUR) == 0;
}

static inline bool wav_format(FILE *file, uint32_t size, struct wav *wav)
{
    unsigned char format[16];
    if (size < 16 || fread(format, 1, 16, file) != 16)
        return false;
    /* PCM, 16 bits */
    if (wav_number(format, 2) != 1 || wav_number(format + 14, 2) != 16)
        return false;
    wav->channels = wav_number(format + 2, 2);
    wav->rate = wav_number(format + 4, 4);
    return wav_skip(file, size, 16);
}

/* The samples, up to the file's end where the head says more, as of a file that was streamed. */
static inline bool wav_samples(FILE *file, uint32_t size, struct wav *wav)
{
    size_t frame = 2 * (size_t)wav->channels;
    if (!wav->channels)
        return false;
    wav->samples = malloc((size_t)size + 1);
    if (!wav->samples)
        return false;
    wav->frames = fread(wav->samples, frame, size / frame, file);
    return true;
}

/* The chunks up to the samples. */
static inline bool wav_chunks(FILE *file, struct wav *wav)
{
    unsigned char head[12];
    if (fread(head, 1, 12, file) != 12 || memcmp(head, "RIFF", 4) || memcmp(head + 8, "WAVE", 4))
        return false;
    while (fread(head, 1, 8, file) == 8) {
        uint32_t size = wav_number(head + 4, 4);
        if (!memcmp(head, "data", 4))
            return wav_samples(file, size, wav);
        if (!memcmp(head, "fmt ", 4) ? !wav_format(file, size, wav) : !wav_skip(file, size, 0))
            return false;
    }
    return false;
}

/* Reads a file, on a machine whose bytes are in the order of WAV's. */
static inline bool wav_read(const char *name, struct wav *wav)
{
    FILE *file = fopen(name, "rb");
    memset(wav, 0, sizeof *wav);
    if (!file)
        return false;
    bool is_read = wav_chunks(file, wav);
    fclose(file);
    return is_read;
}

static inline void wav_put(unsigned char *bytes, uint32_t number, int count)
{
    for (int i = 0; i < count; i++)
        bytes[i] = (unsigned char)(number >> 8 * i);
}

/* Writes what comes before the samples of so many frames, fewer than 2^32 bytes. */
static inline bool wav_write_head(FILE *file, uint32_t channels, uint32_t rate, uint64_t frames)
{
    unsigned char head[44] = "RIFF    WAVEfmt ";
    uint32_t frame = 2 * channels, bytes = (uint32_t)frames * frame;
    wav_put(head + 4, 36 + bytes, 4);
    wav_put(head + 16, 16, 4);
    wav_put(head + 20, 1, 2);
    wav_put(head + 22, channels, 2);
    wav_put(head + 24, rate, 4);
    wav_put(head + 28, rate * frame, 4);
    wav_put(head + 32, frame, 2);
    wav_put(head + 34, 16, 2);
    memcpy(head + 36, "data", 4);
    wav_put(head + 40, bytes, 4);
    return fwrite(head, 1, sizeof head, file) == sizeof head;
}

#endif
