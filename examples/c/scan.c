/* Finds where an echo lives: made noise is played, comes back 11,040 samples later under other noise, and a scan is asked for the delay. All memory is static. */
#include "trimolaveg_typed.h"

#include <math.h>
#include <stdio.h>

#define RATE 48000
#define CEILING 500 /* ms */
#define DELAY 11040 /* 230 ms */
#define SECONDS 3
#define BLOCK 480 /* 10 ms */

static TMV_SCAN_KEPT(RATE, CEILING) kept;
static TMV_SCAN_SCRATCH(RATE, CEILING) scratch;
static struct tmv_scan scan = TMV_SCAN_OVER(kept, scratch);
static float played[RATE * SECONDS], spoken[RATE * SECONDS];

/* Noise whose loudness changes every few milliseconds, as speech does. */
static void make_noise(uint64_t word, float *samples, size_t count)
{
    float loudness = 0;
    for (size_t i = 0; i < count; i++) {
        word ^= word >> 12;
        word ^= word << 25;
        word ^= word >> 27;
        if (i % 240 == 0)
            loudness = (float)(word >> 40) / (1 << 24);
        samples[i] = ((float)(word >> 40) / (1 << 23) - 1) * loudness;
    }
}

/* What the microphone hears: the echo, and somebody who speaks. */
static float captured(uint64_t index)
{
    float echo = index < DELAY ? 0 : played[index - DELAY] * 0.5f;
    return echo + spoken[index] * 0.25f;
}

int main(void)
{
    const float no_number = NAN;
    struct tmv_frame frame = {TMVT_FRAME_UNCOVERED, 0, 0, 0, 0};
    struct tmv_region region;
    enum tmv_taking taking;
    float block[BLOCK];
    size_t taken = 0;

    if (tmv_version() != TMV_VERSION || tmvt_scan_new(&scan, RATE, CEILING))
        return 1;
    make_noise(1, played, RATE * SECONDS);
    make_noise(2, spoken, RATE * SECONDS);
    printf("a far sample that is no number: refused with %d\n", tmvt_scan_push_far(&scan, &no_number, 1));
    printf("a frame to be scored before one is full: refused with %d\n", tmvt_scan_observe(&scan, &frame));

    for (size_t at = 0; at < RATE * SECONDS && frame.kind != TMVT_FRAME_REGION; at += BLOCK) {
        if (tmvt_scan_push_far(&scan, played + at, BLOCK))
            return 1;
        for (size_t i = 0; i < BLOCK; i++)
            block[i] = captured(at + i);
        for (size_t i = 0; i < BLOCK && frame.kind != TMVT_FRAME_REGION; i += taken) {
            if (tmvt_scan_push_near_run(&scan, block + i, BLOCK - i, at + i, &taking, &taken))
                return 1;
            if (taking != TMVT_TAKING_FULL)
                continue;
            if (tmvt_scan_observe(&scan, &frame))
                return 1;
            printf("a frame is full by sample %llu: answer %d, %llu products\n", (unsigned long long)(at + i + taken - 1), frame.kind, (unsigned long long)frame.products);
        }
    }

    if (tmvt_scan_region(&scan, &region))
        return 1;
    if (region.found)
        printf("region: the echo comes %llu samples later, correlation %.3f\n", (unsigned long long)region.delay, region.correlation);
    else
        printf("no region\n");
    return 0;
}
