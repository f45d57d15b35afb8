/* Two microphones, one loudspeaker: made noise is played and comes back to each microphone with a delay of its own, under other noise. One pair is asked for both delays. Halfway the second microphone's stream is cut, which the
 * first does not notice. All memory is static. */
#include "trimolaveg_typed.h"

#include <stdio.h>

#define RATE 48000
#define CEILING 500 /* ms */
#define SECONDS 4
#define BLOCK 480 /* 10 ms */
#define CUT 60000 /* the second microphone misses a block here */

static TMV_PAIR_KEPT(RATE, CEILING) kept;
static TMV_PAIR_SCRATCH(RATE, CEILING) scratch;
static struct tmv_pair pair = TMV_PAIR_OVER(kept, scratch);
static const size_t delays[2] = {11040, 2400}; /* 230 and 50 ms */
static float played[RATE * SECONDS], spoken[2][RATE * SECONDS];

/* Noise whose loudness changes every few milliseconds, as speech does. */
static void make_noise(uint64_t word, float *samples, size_t count)
{
    float loudness = 0;
    for (size_t i = 0; i < count; i++) {
        word ^= word >> 12;
        word ^= word << 25;
        word ^= word >> 27;
        if (i % 240 == 0)
            loudness = (float)(word >> 40) / (1 << 24);
        samples[i] = ((float)(word >> 40) / (1 << 23) - 1) * loudness;
    }
}

/* What a microphone hears: the echo, and somebody who speaks. */
static float captured(uint32_t channel, size_t index)
{
    const size_t delay = delays[channel];
    float echo = index < delay ? 0 : played[index - delay] * 0.5f;
    return echo + spoken[channel][index] * 0.25f;
}

/* Hands a block of one microphone over and scores the frame that it completes, if any. Answers 0 if a call was refused. */
static int listen(uint32_t channel, size_t at)
{
    float block[BLOCK];
    struct tmv_frame frame;
    enum tmv_taking taking;
    size_t taken = 0;

    for (size_t i = 0; i < BLOCK; i++)
        block[i] = captured(channel, at + i);
    for (size_t i = 0; i < BLOCK; i += taken) {
        if (tmvt_pair_push_near_run(&pair, channel, block + i, BLOCK - i, at + i, &taking, &taken))
            return 0;
        if (taking != TMVT_TAKING_FULL)
            continue;
        if (tmvt_pair_observe(&pair, channel, &frame))
            return 0;
        printf("microphone %u, a frame is full by sample %llu: %s\n", (unsigned)channel, (unsigned long long)(at + i + taken - 1), tmvt_frame_text(frame.kind));
    }
    return 1;
}

int main(void)
{
    struct tmv_region region;
    bool finished[2] = {false, false};

    if (tmv_version() != TMV_VERSION || tmvt_pair_new(&pair, RATE, CEILING))
        return 1;
    make_noise(1, played, RATE * SECONDS);
    make_noise(2, spoken[0], RATE * SECONDS);
    make_noise(3, spoken[1], RATE * SECONDS);
    printf("a pair takes %lu bytes, two scans %lu, scratch apart\n", 8UL * TMV_PAIR_WORDS + TMV_PAIR_KEPT_BYTES(RATE, CEILING), 2 * (8UL * TMV_SCAN_WORDS + TMV_SCAN_KEPT_BYTES(RATE, CEILING)));
    printf("a third microphone: refused with %d\n", tmvt_pair_rearm(&pair, 2));

    for (size_t at = 0; at < RATE * SECONDS && !(finished[0] && finished[1]); at += BLOCK) {
        if (tmvt_pair_push_far(&pair, played + at, BLOCK))
            return 1;
        for (uint32_t channel = 0; channel < 2; channel++) {
            if (channel == 1 && at == CUT) {
                if (tmvt_pair_discard_near(&pair, channel))
                    return 1;
                printf("microphone 1 is cut at sample %d\n", CUT);
                continue;
            }
            if (!listen(channel, at) || tmvt_pair_finished(&pair, channel, &finished[channel]))
                return 1;
        }
    }

    for (uint32_t channel = 0; channel < 2; channel++) {
        if (tmvt_pair_region(&pair, channel, &region))
            return 1;
        if (region.found)
            printf("microphone %u: the echo comes %llu samples later, correlation %.3f\n", (unsigned)channel, (unsigned long long)region.delay, region.correlation);
        else
            printf("microphone %u: no region\n", (unsigned)channel);
    }
    return 0;
}
