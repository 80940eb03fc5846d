// Sums WAV files of one channel as a plain C program does it, and writes the saturated sum: the baseline of bench/whole_run.py.
//
// usage: plain_sum OUT.wav IN.wav..        all of one length, 16-bit, with a head of 44 bytes
#include <stdint.h>
#include <stdio.h>
#include <stdlib.h>
#include <string.h>

enum { HEAD = 44, PIECE = 65536 };

static void fail(const char *name) {
    perror(name);
    exit(1);
}

// Adds a file's samples to the sums, piece by piece; the first file says how many there are.
static void add(const char *name, unsigned char head[HEAD], int32_t **sums, size_t *count) {
    static int16_t piece[PIECE / 2];
    FILE *file = fopen(name, "rb");
    if (!file || fread(head, 1, HEAD, file) != HEAD) fail(name);
    if (!*sums) {
        uint32_t bytes;
        memcpy(&bytes, head + 40, 4);
        *count = bytes / 2;
        *sums = calloc(*count, sizeof **sums);
        if (!*sums) fail(name);
    }
    size_t at = 0, got;
    while (at < *count && (got = fread(piece, 2, PIECE / 2, file)) > 0) {
        for (size_t i = 0; i < got && at < *count; i++) (*sums)[at++] += piece[i];
    }
    fclose(file);
}

int main(int argc, char **argv) {
    unsigned char head[HEAD];
    int32_t *sums = NULL;
    size_t count = 0;
    for (int i = 2; i < argc; i++) add(argv[i], head, &sums, &count);
    int16_t *out = malloc(2 * count);
    if (argc < 3 || !out) return 1;
    for (size_t i = 0; i < count; i++) {
        int32_t sum = sums[i];
        out[i] = sum > 32767 ? 32767 : sum < -32768 ? -32768 : sum;
    }
    FILE *file = fopen(argv[1], "wb");
    if (!file || fwrite(head, 1, HEAD, file) != HEAD || fwrite(out, 2, count, file) != count || fclose(file)) fail(argv[1]);
    return 0;
}
