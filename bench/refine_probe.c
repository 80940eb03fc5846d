/* Narrows the parameter space of alsa-lib's `null` PCM as a text of `dmixlab refine` says, and prints what is left in the
 * words of that command. It knows the lines `set`, `min`, `max`, `integer` and `show` on the interval parameters.
 *
 * usage: refine_probe < TEXT        cc -o refine_probe refine_probe.c -lasound
 */
#include <alsa/asoundlib.h>
#include <stdio.h>
#include <string.h>

/* The layout of struct snd_pcm_hw_params of sound/asound.h, which alsa/asoundlib.h hides. */
struct interval {
    unsigned int min, max;
    unsigned int openmin : 1, openmax : 1, integer : 1, empty : 1;
};
struct space {
    unsigned int flags;
    unsigned int masks[8][8];
    struct interval intervals[21];
    unsigned int rmask, cmask;
};
enum { FIRST_INTERVAL = 8 };

/* The refinement by all rules, which libasound.so exports but its headers do not declare. */
int snd_pcm_hw_refine(snd_pcm_t *pcm, snd_pcm_hw_params_t *params);

typedef int (*narrowing)(snd_pcm_t *, snd_pcm_hw_params_t *, unsigned int);

#define WITHOUT_DIRECTION(NAME, NUMBER) \
    static int set_##NAME(snd_pcm_t *pcm, snd_pcm_hw_params_t *params, unsigned int value) { \
        return snd_pcm_hw_params_set_##NAME(pcm, params, value); \
    } \
    static int min_##NAME(snd_pcm_t *pcm, snd_pcm_hw_params_t *params, unsigned int value) { \
        NUMBER end = value; \
        return snd_pcm_hw_params_set_##NAME##_min(pcm, params, &end); \
    } \
    static int max_##NAME(snd_pcm_t *pcm, snd_pcm_hw_params_t *params, unsigned int value) { \
        NUMBER end = value; \
        return snd_pcm_hw_params_set_##NAME##_max(pcm, params, &end); \
    }

#define WITH_DIRECTION(NAME, NUMBER) \
    static int set_##NAME(snd_pcm_t *pcm, snd_pcm_hw_params_t *params, unsigned int value) { \
        return snd_pcm_hw_params_set_##NAME(pcm, params, value, 0); \
    } \
    static int min_##NAME(snd_pcm_t *pcm, snd_pcm_hw_params_t *params, unsigned int value) { \
        NUMBER end = value; \
        int direction = 0; \
        return snd_pcm_hw_params_set_##NAME##_min(pcm, params, &end, &direction); \
    } \
    static int max_##NAME(snd_pcm_t *pcm, snd_pcm_hw_params_t *params, unsigned int value) { \
        NUMBER end = value; \
        int direction = 0; \
        return snd_pcm_hw_params_set_##NAME##_max(pcm, params, &end, &direction); \
    }

WITHOUT_DIRECTION(channels, unsigned int)
WITHOUT_DIRECTION(buffer_size, snd_pcm_uframes_t)
WITH_DIRECTION(rate, unsigned int)
WITH_DIRECTION(period_time, unsigned int)
WITH_DIRECTION(period_size, snd_pcm_uframes_t)
WITH_DIRECTION(periods, unsigned int)
WITH_DIRECTION(buffer_time, unsigned int)

/* The interval parameters in the order of their numbers (SNDRV_PCM_HW_PARAM_SAMPLE_BITS is 8). Those without calls of
 * their own are narrowed in the structure. */
static const struct parameter {
    const char *name;
    narrowing set, min, max;
} parameters[] = {
    {"sample_bits", NULL, NULL, NULL},
    {"frame_bits", NULL, NULL, NULL},
    {"channels", set_channels, min_channels, max_channels},
    {"rate", set_rate, min_rate, max_rate},
    {"period_time", set_period_time, min_period_time, max_period_time},
    {"period_size", set_period_size, min_period_size, max_period_size},
    {"period_bytes", NULL, NULL, NULL},
    {"periods", set_periods, min_periods, max_periods},
    {"buffer_time", set_buffer_time, min_buffer_time, max_buffer_time},
    {"buffer_size", set_buffer_size, min_buffer_size, max_buffer_size},
    {"buffer_bytes", NULL, NULL, NULL},
};
enum { PARAMETERS = sizeof parameters / sizeof parameters[0] };

static struct interval *interval_of(snd_pcm_hw_params_t *params, int which) {
    return &((struct space *)params)->intervals[which];
}

/* Narrows an interval in the structure as alsa-lib's snd_interval_refine does, and refines all by the rules. */
static int narrow(snd_pcm_t *pcm, snd_pcm_hw_params_t *params, int which, unsigned int min, unsigned int max, int integer) {
    struct interval *i = interval_of(params, which);
    if (i->min < min) {
        i->min = min;
        i->openmin = 0;
    }
    if (i->max > max) {
        i->max = max;
        i->openmax = 0;
    }
    if (integer)
        i->integer = 1;
    if (i->integer) {
        i->min += i->openmin;
        i->max -= i->openmax;
        i->openmin = i->openmax = 0;
    } else if (!i->openmin && !i->openmax && i->min == i->max) {
        i->integer = 1;
    }
    if (i->min > i->max || (i->min == i->max && (i->openmin || i->openmax)))
        return -EINVAL;
    ((struct space *)params)->rmask |= 1u << (FIRST_INTERVAL + which);
    return snd_pcm_hw_refine(pcm, params);
}

static int find(const char *name) {
    for (int which = 0; which < PARAMETERS; which++)
        if (strcmp(name, parameters[which].name) == 0)
            return which;
    fprintf(stderr, "refine_probe: no such parameter: %s\n", name);
    exit(2);
}

static int apply(snd_pcm_t *pcm, snd_pcm_hw_params_t *params, const char *word, int which, unsigned int value) {
    const struct parameter *p = &parameters[which];
    if (strcmp(word, "show") == 0)
        return 0;
    if (strcmp(word, "integer") == 0)
        return narrow(pcm, params, which, 0, 4294967295u, 1);
    if (strcmp(word, "set") == 0)
        return p->set ? p->set(pcm, params, value) : narrow(pcm, params, which, value, value, 1);
    if (strcmp(word, "min") == 0)
        return p->min ? p->min(pcm, params, value) : narrow(pcm, params, which, value, 4294967295u, 0);
    if (strcmp(word, "max") == 0)
        return p->max ? p->max(pcm, params, value) : narrow(pcm, params, which, 0, value, 0);
    fprintf(stderr, "refine_probe: no such word: %s\n", word);
    exit(2);
}

/* The slave's widest space, within all that the null PCM offers. */
static int widest(snd_pcm_t *pcm, snd_pcm_hw_params_t *params, unsigned int channels, unsigned int rate, unsigned int ring) {
    int failed = snd_pcm_hw_params_any(pcm, params) < 0
        || snd_pcm_hw_params_set_access(pcm, params, SND_PCM_ACCESS_RW_INTERLEAVED) < 0
        || snd_pcm_hw_params_set_format(pcm, params, SND_PCM_FORMAT_S16_LE) < 0
        || max_channels(pcm, params, channels) < 0
        || set_rate(pcm, params, rate) < 0
        || min_period_size(pcm, params, 16) < 0
        || max_period_size(pcm, params, ring / 2) < 0
        || min_buffer_size(pcm, params, 32) < 0
        || max_buffer_size(pcm, params, ring) < 0
        || min_periods(pcm, params, 2) < 0
        || max_periods(pcm, params, 1024) < 0;
    for (int which = 0; which < PARAMETERS && !failed; which++)
        if (strstr(parameters[which].name, "time") == NULL)
            failed = narrow(pcm, params, which, 1, 4294967295u, 1) < 0;
    return failed;
}

int main(void) {
    snd_pcm_t *pcm;
    snd_pcm_hw_params_t *params, *before;
    unsigned int channels, rate, period, ring;
    char word[16], name[16];
    snd_pcm_hw_params_alloca(&params);
    snd_pcm_hw_params_alloca(&before);
    if (snd_pcm_open(&pcm, "null", SND_PCM_STREAM_PLAYBACK, 0) < 0
        || scanf("slave channels %u rate %u period %u ring %u", &channels, &rate, &period, &ring) != 4
        || widest(pcm, params, channels, rate, ring)) {
        fprintf(stderr, "refine_probe: no space\n");
        return 2;
    }
    while (scanf("%15s %15s", word, name) == 2) {
        unsigned int value = 0;
        int which = find(name);
        if (strcmp(word, "show") != 0 && strcmp(word, "integer") != 0 && scanf("%u", &value) != 1)
            return 2;
        snd_pcm_hw_params_copy(before, params);
        if (apply(pcm, params, word, which, value) < 0) {
            snd_pcm_hw_params_copy(params, before);
            puts("empty");
            continue;
        }
        const struct interval *i = interval_of(params, which);
        printf("ok %s %c%u,%u%c%s\n", name, i->openmin ? '(' : '[', i->min, i->max, i->openmax ? ')' : ']',
            i->integer ? " integer" : "");
    }
    return 0;
}
