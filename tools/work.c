/* docs/WORK.md: the most products that one frame can take at the usual settings, from include/trimolaveg_sizes.h alone. */
#include "trimolaveg_sizes.h"

#include <stdio.h>

static const unsigned long rates[] = {8000, 16000, 22050, 32000, 44100, 48000, 96000, 192000};
static const unsigned long ceilings[] = {100, 250, 500, 1000, 2000, 4000};

static void row(unsigned long rate, unsigned long ceiling)
{
    printf("| %lu | %lu | %lu | %lu | %lu |\n", rate, ceiling, TMV_SCAN_LAGS_LEN(rate, ceiling), TMV_SCAN_LEVELS_LEN(rate, ceiling), TMV_SCAN_MOST_PRODUCTS(rate, ceiling));
}

int main(void)
{
    printf("# The work of one frame\n\nWritten by `tools/work --write` and held by tests/work.sh.\n\n");
    printf("A scored frame tells how many products it formed in its lag sums (SPECIFICATION 7): the frame's bins, times the lags whose segment energy is above 1e-12. It is 0 after steps 1 to 4, and never\n"
           "more than lags times bins, which is the last column (theorem `products_at_most`). A frame is about 256 ms of near samples, so that no more than four are scored in a second, and none once the\n"
           "scan has finished. What else a frame takes grows with its window, bins plus lags, and not with their product. Times are in [PERFORMANCE](PERFORMANCE.md).\n\n");
    printf("| Rate in Hz | Ceiling in ms | Lags | Bins in a frame | Products at most |\n|---|---|---|---|---|\n");
    for (size_t i = 0; i < sizeof rates / sizeof *rates; i++)
        for (size_t j = 0; j < sizeof ceilings / sizeof *ceilings; j++)
            row(rates[i], ceilings[j]);
    printf("| any, at most | any | %lu | %lu | %lu |\n", TMV_SCAN_LAGS_MOST, TMV_SCAN_LEVELS_MOST, TMV_SCAN_LAGS_MOST * TMV_SCAN_LEVELS_MOST);
    return 0;
}
