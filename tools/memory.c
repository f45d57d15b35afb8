/* The first half of docs/MEMORY.md: bytes of state, kept and scratch lists at the usual settings, from include/trimolaveg_sizes.h alone. */
#include "trimolaveg_sizes.h"

#include <stdio.h>

static const unsigned long rates[] = {8000, 16000, 44100, 48000, 96000};
static const unsigned long ceilings[] = {100, 250, 500, 1000, 4000};
static const unsigned long panel_ceilings[] = {8, 40, 80, 160, 250, 320};
static const unsigned long spans[] = {512, 1024, 2048, 4096, 8192, 32768};

int main(void)
{
    printf("## The coarse scan\n\nIts state has %lu bytes. Kept are envelope, levels and lag sums; scratch are window, both prefixes and scores, and several scans may share it.\n\n", 8UL * TMV_SCAN_WORDS);
    printf("| Rate in Hz | Ceiling in ms | Kept | Scratch |\n|---|---|---|---|\n");
    for (size_t i = 0; i < sizeof rates / sizeof *rates; i++)
        for (size_t j = 0; j < sizeof ceilings / sizeof *ceilings; j++)
            printf("| %lu | %lu | %lu | %lu |\n", rates[i], ceilings[j], TMV_SCAN_KEPT_BYTES(rates[i], ceilings[j]), TMV_SCAN_SCRATCH_BYTES(rates[i], ceilings[j]));
    printf("| any, at most | any | %lu | %lu |\n", 8UL * TMV_SCAN_LAGS_MOST + 4UL * TMV_SCAN_ENVELOPE_MOST + 4UL * TMV_SCAN_LEVELS_MOST,
           16UL * TMV_SCAN_PREFIX_MOST + 8UL * TMV_SCAN_LAGS_MOST + 4UL * TMV_SCAN_WINDOW_MOST);

    printf("\n## The panel\n\nThe narrow profile: 8,000 or 16,000 Hz, 8 to 320 ms. Its state has %lu bytes. At both rates the lists are the same.\n\n", 8UL * TMV_SCAN_WORDS);
    printf("| Ceiling in ms | Kept | Scratch | All of it | A scan |\n|---|---|---|---|---|\n");
    for (size_t i = 0; i < sizeof panel_ceilings / sizeof *panel_ceilings; i++) {
        const unsigned long ceiling = panel_ceilings[i], kept = TMV_PANEL_KEPT_BYTES(16000UL, ceiling), scratch = TMV_PANEL_SCRATCH_BYTES(16000UL, ceiling);
        printf("| %lu | %lu | %lu | %lu | %lu |\n", ceiling, kept, scratch, 8UL * TMV_SCAN_WORDS + kept + scratch, 8UL * TMV_SCAN_WORDS + TMV_SCAN_KEPT_BYTES(16000UL, ceiling) + TMV_SCAN_SCRATCH_BYTES(16000UL, ceiling));
    }
    printf("\nA panel takes at most %lu bytes: less than 24 KiB, which are %lu.\n", TMV_PANEL_BYTES_MOST, 24UL * 1024UL);

    printf("\n## The pair\n\nTwo microphones, one loudspeaker: one envelope for both. State and kept lists of a pair, and of two scans in its place. Scratch is one scan's, for two scans too.\n\n");
    printf("| Rate in Hz | Ceiling in ms | A pair | Two scans |\n|---|---|---|---|\n");
    for (size_t i = 0; i < sizeof rates / sizeof *rates; i++)
        for (size_t j = 0; j < sizeof ceilings / sizeof *ceilings; j++)
            printf("| %lu | %lu | %lu | %lu |\n", rates[i], ceilings[j], 8UL * TMV_PAIR_WORDS + TMV_PAIR_KEPT_BYTES(rates[i], ceilings[j]), 2 * (8UL * TMV_SCAN_WORDS + TMV_SCAN_KEPT_BYTES(rates[i], ceilings[j])));

    printf("\n## The fine stage\n\nIts state has %lu bytes. Kept are the near frame and the retained one; scratch are the far window and the correlation. The transform is the host's.\n\n", 8UL * TMV_FINE_WORDS);
    printf("| Span in samples | Kept | Scratch |\n|---|---|---|\n");
    for (size_t i = 0; i < sizeof spans / sizeof *spans; i++)
        printf("| %lu | %lu | %lu |\n", spans[i], TMV_FINE_KEPT_BYTES(spans[i]), TMV_FINE_SCRATCH_BYTES(spans[i]));
    printf("| any, at most | %lu | %lu |\n", 8UL * TMV_FINE_FRAME_MOST, 4UL * TMV_FINE_WINDOW_MOST + 4UL * TMV_FINE_CORRELATION_MOST);

    printf("\n## Tracker and ring\n\nA tracker has %lu bytes and no list. A ring has %lu, and 4 for each sample of its capacity.\n", 8UL * TMV_TRACKER_WORDS, 8UL * TMV_RING_WORDS);
    return 0;
}
