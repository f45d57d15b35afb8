/* examples/c/chain.c in made rooms: noise is played and comes back some time later, under other noise. Prints each change of lock and alignment with its moment, which tests/integration/expected has. */
#include "../../examples/c/chain.c"

#include <complex.h>
#include <math.h>
#include <stdio.h>
#include <stdlib.h>

#define SECONDS 12
#define LENGTH (RATE * SECONDS)

static float sound[LENGTH], talk[LENGTH];
static double complex near_bins[TRANSFORM], far_bins[TRANSFORM], sum[TRANSFORM], made[TRANSFORM];
static float back[TRANSFORM];

void refused(enum tmv_refusal refusal)
{
    printf("refused: %s\n", tmvt_refusal_text(refusal));
    exit(1);
}

/* The unscaled transform of `count` numbers, a power of two; with sign 1 the inverse. */
static void transform(double complex *list, size_t count, int sign)
{
    for (size_t i = 1, j = 0; i < count; i++) {
        size_t bit = count >> 1;
        for (; j & bit; bit >>= 1)
            j ^= bit;
        j ^= bit;
        if (i < j) {
            const double complex kept = list[i];
            list[i] = list[j];
            list[j] = kept;
        }
    }
    for (size_t half = 1; half < count; half *= 2)
        for (size_t k = 0; k < half; k++) {
            const double complex turn = cexp(sign * I * 3.14159265358979323846 * (double)k / (double)half);
            for (size_t i = k; i < count; i += 2 * half) {
                const double complex odd = turn * list[i + half];
                list[i + half] = list[i] - odd;
                list[i] += odd;
            }
        }
}

static void spectrum_of(double complex *bins, const float *samples, size_t count)
{
    for (size_t i = 0; i < TRANSFORM; i++)
        bins[i] = i < count ? samples[i] : 0;
    transform(bins, TRANSFORM, -1);
}

void cross(const float *near_frame, const float *far_window, enum spectrum how)
{
    spectrum_of(near_bins, near_frame, FRAME);
    spectrum_of(far_bins, far_window, TRANSFORM);
    for (size_t i = 0; i < TRANSFORM; i++) {
        const double complex z = conj(near_bins[i]) * far_bins[i], turned = z / (cabs(z) + 1e-12);
        made[i] = how == ADDED ? sum[i] + turned : turned;
        if (how != APART)
            sum[i] = made[i];
    }
}

const float *correlation(void)
{
    transform(made, TRANSFORM, 1);
    for (size_t i = 0; i < TRANSFORM; i++)
        back[i] = (float)(creal(made[i]) / TRANSFORM);
    return back;
}

/* Noise whose loudness changes every few milliseconds, as speech does. */
static void make_noise(uint64_t word, float *samples)
{
    float loudness = 0;
    for (size_t i = 0; i < LENGTH; i++) {
        word ^= word >> 12;
        word ^= word << 25;
        word ^= word >> 27;
        const uint64_t drawn = (word * 0x2545F4914F6CDD1D) >> 40;
        if (i % 80 == 0)
            loudness = (float)drawn / (1 << 24);
        samples[i] = ((float)drawn / (1 << 23) - 1) * loudness;
    }
}

/* A room: an echo that comes `early` samples later in the first half and `late` samples later in the second; -1 is no echo. At `lost` 1,000 captured samples are lost. */
static void room(const char *name, int64_t early, int64_t late, uint64_t lost)
{
    bool was_locked = false;
    uint64_t was = 0;

    printf("%s\n", name);
    begin();
    for (uint64_t at = 0; at < LENGTH; at++) {
        if (at % BLOCK == 0)
            played(sound + at);
        if (lost && at == lost)
            cut(lost + 1000);
        if (lost && at >= lost && at < lost + 1000)
            continue;
        const int64_t delay = at < LENGTH / 2 ? early : late;
        const float echo = delay < 0 || at < (uint64_t)delay ? 0 : sound[at - (uint64_t)delay] * 0.5f;
        const float heard = echo + talk[at] * 0.1f;
        captured(&heard, 1);
        if (locked != was_locked || (locked && alignment != was))
            printf("  %6.3f s: %s %llu\n", (double)(at + 1) / RATE, !locked ? "given up" : was_locked ? "move" : "lock", (unsigned long long)alignment);
        was_locked = locked;
        was = alignment;
    }
}

int main(void)
{
    make_noise(88172645463325252, sound);
    make_noise(7046029254386353131, talk);
    room("230 ms", 3680, 3680, 0);
    room("50 ms, inside the first search", 800, 800, 0);
    room("4 ms, at its end", 64, 64, 0);
    room("at once", 0, 0, 0);
    room("470 ms, then 460 ms", 7520, 7360, 0);
    room("230 ms, then 280 ms", 3680, 4480, 0);
    room("230 ms, then 270 ms", 3680, 4320, 0);
    room("100 ms, then 400 ms", 1600, 6400, 0);
    room("230 ms, cut after 6 s", 3680, 3680, 96000);
    room("no echo, then 230 ms", -1, 3680, 0);
    room("no echo", -1, -1, 0);
    return 0;
}
