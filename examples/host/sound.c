#include "sound.h"

#include <math.h>
#include <stdio.h>
#include <string.h>

#define AT_ONCE 256 /* frames that are read at once */
#define MOST_CHANNELS 32

static bool fail(struct sound *sound, const char *reason)
{
    fprintf(stderr, "host: %s: %s\n", sound->path, reason);
    sound_close(sound);
    return false;
}

bool sound_open(struct sound *sound, const char *path, int channel)
{
    char reason[160];

    memset(sound, 0, sizeof *sound);
    sound->path = path;
    sound->file = sf_open(path, SFM_READ, &sound->info);
    if (!sound->file)
        return fail(sound, sf_strerror(NULL));
    if (sound->info.channels > MOST_CHANNELS)
        return fail(sound, "more than 32 channels");
    if (sound->info.channels > 1 && channel == 0) {
        snprintf(reason, sizeof reason, "it has %d channels: name one of them with --played-channel or --heard-channel", sound->info.channels);
        return fail(sound, reason);
    }
    if (channel > sound->info.channels) {
        snprintf(reason, sizeof reason, "there is no channel %d: it has %d", channel, sound->info.channels);
        return fail(sound, reason);
    }
    sound->channel = channel ? channel - 1 : 0;
    return true;
}

/* The host may not hand the library what is no number: a file of floats can hold such. */
static float number(struct sound *sound, float sample)
{
    if (isfinite(sample))
        return sample;
    sound->not_finite++;
    return 0;
}

size_t sound_read(struct sound *sound, float *samples, size_t count)
{
    float frames[AT_ONCE * MOST_CHANNELS];
    size_t done = 0;

    while (done < count) {
        const size_t wanted = count - done < AT_ONCE ? count - done : AT_ONCE;
        const sf_count_t got = sf_readf_float(sound->file, frames, (sf_count_t)wanted);
        for (sf_count_t i = 0; i < got; i++)
            samples[done++] = number(sound, frames[i * sound->info.channels + sound->channel]);
        if (got < (sf_count_t)wanted)
            break;
    }
    return done;
}

double sound_seconds(const struct sound *sound)
{
    return (double)sound->info.frames / sound->info.samplerate;
}

void sound_close(struct sound *sound)
{
    if (sound->file)
        sf_close(sound->file);
    sound->file = NULL;
}
