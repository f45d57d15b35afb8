#include "transform.h"

#include <complex.h>
#include <fftw3.h>
#include <math.h>
#include <stdlib.h>
#include <string.h>

struct transform {
    size_t length, frame, bins;
    float *taper;                                  /* a factor for each sample of a near frame */
    float *samples;                                /* of one side, padded with zeros; and the way back */
    fftwf_complex *near_bins, *far_bins, *sum, *made;
    fftwf_plan near_forward, far_forward, backward;
};

static void fill_taper(struct transform *transform, bool tapered)
{
    const double turn = 2 * 3.14159265358979323846;

    for (size_t i = 0; i < transform->frame; i++)
        transform->taper[i] = tapered ? (float)(0.5 - 0.5 * cos(turn * ((double)i + 0.5) / (double)transform->frame)) : 1;
}

static bool lend(struct transform *transform)
{
    transform->taper = malloc(transform->frame * sizeof *transform->taper);
    transform->samples = fftwf_alloc_real(transform->length);
    transform->near_bins = fftwf_alloc_complex(transform->bins);
    transform->far_bins = fftwf_alloc_complex(transform->bins);
    transform->sum = fftwf_alloc_complex(transform->bins);
    transform->made = fftwf_alloc_complex(transform->bins);
    return transform->taper && transform->samples && transform->near_bins && transform->far_bins && transform->sum && transform->made;
}

static bool plan(struct transform *transform)
{
    const int length = (int)transform->length;

    transform->near_forward = fftwf_plan_dft_r2c_1d(length, transform->samples, transform->near_bins, FFTW_ESTIMATE);
    transform->far_forward = fftwf_plan_dft_r2c_1d(length, transform->samples, transform->far_bins, FFTW_ESTIMATE);
    transform->backward = fftwf_plan_dft_c2r_1d(length, transform->made, transform->samples, FFTW_ESTIMATE);
    return transform->near_forward && transform->far_forward && transform->backward;
}

struct transform *transform_new(size_t length, size_t frame, bool tapered)
{
    struct transform *transform = calloc(1, sizeof *transform);

    if (!transform)
        return NULL;
    transform->length = length;
    transform->frame = frame;
    transform->bins = length / 2 + 1;
    if (!lend(transform) || !plan(transform)) {
        transform_free(transform);
        return NULL;
    }
    fill_taper(transform, tapered);
    memset(transform->sum, 0, transform->bins * sizeof *transform->sum);
    return transform;
}

static void drop_plan(fftwf_plan one)
{
    if (one)
        fftwf_destroy_plan(one);
}

void transform_free(struct transform *transform)
{
    drop_plan(transform->near_forward);
    drop_plan(transform->far_forward);
    drop_plan(transform->backward);
    fftwf_free(transform->samples);
    fftwf_free(transform->near_bins);
    fftwf_free(transform->far_bins);
    fftwf_free(transform->sum);
    fftwf_free(transform->made);
    free(transform->taper);
    free(transform);
}

size_t transform_bytes(const struct transform *transform)
{
    return (transform->frame + transform->length) * sizeof(float) + 4 * transform->bins * sizeof(fftwf_complex);
}

/* conj(near) * far, of length 1 in every bin that has any. Written out, so that it needs no care for infinities. */
static float complex turned(float complex near_bin, float complex far_bin)
{
    const float re = crealf(near_bin) * crealf(far_bin) + cimagf(near_bin) * cimagf(far_bin);
    const float im = crealf(near_bin) * cimagf(far_bin) - cimagf(near_bin) * crealf(far_bin);
    const float scale = 1 / (sqrtf(re * re + im * im) + 1e-12f);

    return re * scale + im * scale * I;
}

void transform_cross(struct transform *transform, const float *near_frame, const float *far_window, enum spectrum how)
{
    memset(transform->samples, 0, transform->length * sizeof(float));
    for (size_t i = 0; i < transform->frame; i++)
        transform->samples[i] = near_frame[i] * transform->taper[i];
    fftwf_execute(transform->near_forward);
    memcpy(transform->samples, far_window, transform->length * sizeof(float));
    fftwf_execute(transform->far_forward);
    for (size_t i = 0; i < transform->bins; i++) {
        const float complex z = turned(transform->near_bins[i], transform->far_bins[i]);
        transform->made[i] = how == ADDED ? transform->sum[i] + z : z;
        if (how != APART)
            transform->sum[i] = transform->made[i];
    }
}

const float *transform_back(struct transform *transform)
{
    fftwf_execute(transform->backward);
    return transform->samples;
}
