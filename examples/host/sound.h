/* A sound file, one channel of it, block by block. */
#ifndef HOST_SOUND_H
#define HOST_SOUND_H

#include <sndfile.h>
#include <stdbool.h>
#include <stddef.h>
#include <stdint.h>

struct sound {
    const char *path;
    SNDFILE *file;
    SF_INFO info;
    int channel;     /* from 0 */
    uint64_t not_finite; /* samples that were no numbers, and were read as 0 */
};

/* Channels count from 1; 0 is for a file that has one only. Where it cannot be opened, says why on standard error. */
bool sound_open(struct sound *sound, const char *path, int channel);

/* As many samples as there are, up to `count`. */
size_t sound_read(struct sound *sound, float *samples, size_t count);

double sound_seconds(const struct sound *sound);
void sound_close(struct sound *sound);

#endif
