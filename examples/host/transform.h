/* The host's Fourier transform: the phase-transformed cross spectrum of near and far, summed over frames, and back (docs/INTEGRATION.md, section 3). By FFTW. */
#ifndef HOST_TRANSFORM_H
#define HOST_TRANSFORM_H

#include <stdbool.h>
#include <stddef.h>

struct transform;

/* What becomes of a frame's spectrum: it begins a new sum, is added to the sum, or is looked at by itself. */
enum spectrum { NEW_SUM, ADDED, APART };

/* Of this length, for near frames of `frame` samples; tapered: these get a Hann window first. NULL where there is no memory. */
struct transform *transform_new(size_t length, size_t frame, bool tapered);
void transform_free(struct transform *transform);
size_t transform_bytes(const struct transform *transform);

void transform_cross(struct transform *transform, const float *near_frame, const float *far_window, enum spectrum how);

/* What transform_cross made last, transformed back: as many numbers as the transform is long. */
const float *transform_back(struct transform *transform);

#endif
