/* Holds the constants of trimolaveg_sizes.h to the proved length functions, and the largest of each to all of them. `check` tries every rate with some ceilings, every ceiling with some rates and every span;
 * `check full` every rate with every ceiling. */
#include "trimolaveg_typed.h"

#include <stdio.h>
#include <stdlib.h>

/* They are constants: a list's length, a case of #if. */
static TMV_SCAN_KEPT(48000, 500) kept;
static TMV_SCAN_SCRATCH(48000, 500) scratch;
static TMV_PANEL_KEPT(16000, 320) narrow;
static TMV_PANEL_SCRATCH(16000, 320) narrow_scratch;
static TMV_PAIR_KEPT(48000, 500) both;
static TMV_FINE_KEPT(4096) frames;
#if TMV_SCAN_KEPT_BYTES(48000, 500) != 24056 || TMV_PAIR_KEPT_BYTES(48000, 500) != 29088 || TMV_FINE_FRAME_LEN(4096) != 4096 || TMV_SCAN_LAGS_LEN(7999, 500) != 0 || TMV_SCAN_MOST_PRODUCTS(48000, 500) != 128256
#error "the constants are not what they were"
#endif
#if TMV_PANEL_BYTES_MOST > 24 * 1024 || TMV_PANEL_KEPT_BYTES(16000, 320) != 7944 || TMV_PANEL_SCRATCH_BYTES(16000, 320) != 14104 || TMV_PANEL_ENVELOPE_LEN(12000, 320) != 0
#error "a panel takes more than it may"
#endif

static const uint32_t some_rates[] = {0, 7999, 8000, 8499, 8500, 11025, 16000, 22050, 32000, 44100, 48000, 96000, 191999, 192000, 192001, UINT32_MAX};
static const uint32_t some_ceilings[] = {0, 1, 2, 10, 100, 250, 499, 500, 1000, 2000, 3999, 4000, 4001, UINT32_MAX};

static unsigned long tried, different;
enum { KINDS = 10 }; /* of lists, numbered as in the_largest */
static uint64_t most_seen[KINDS], most_panel;

static void same(size_t which, uint64_t constant, uint64_t call, const char *name, uint32_t first, uint32_t second)
{
    if (call > most_seen[which])
        most_seen[which] = call;
    if (constant == call)
        return;
    if (different++ < 5)
        printf("sizes: %s(%lu, %lu) is %llu, and the call says %llu\n", name, (unsigned long)first, (unsigned long)second, (unsigned long long)constant, (unsigned long long)call);
}

static void scan_at(uint32_t rate, uint32_t ceiling)
{
    tried++;
    same(0, TMV_SCAN_ENVELOPE_LEN(rate, ceiling), tmv_scan_envelope_len(rate, ceiling), "TMV_SCAN_ENVELOPE_LEN", rate, ceiling);
    same(1, TMV_SCAN_LEVELS_LEN(rate, ceiling), tmv_scan_levels_len(rate, ceiling), "TMV_SCAN_LEVELS_LEN", rate, ceiling);
    same(2, TMV_SCAN_WINDOW_LEN(rate, ceiling), tmv_scan_window_len(rate, ceiling), "TMV_SCAN_WINDOW_LEN", rate, ceiling);
    same(3, TMV_SCAN_PREFIX_LEN(rate, ceiling), tmv_scan_prefix_len(rate, ceiling), "TMV_SCAN_PREFIX_LEN", rate, ceiling);
    same(4, TMV_SCAN_LAGS_LEN(rate, ceiling), tmv_scan_lags_len(rate, ceiling), "TMV_SCAN_LAGS_LEN", rate, ceiling);
}

/* The bytes too: a panel is the only part that has a bound on all of them. */
static void panel_at(uint32_t rate, uint32_t ceiling)
{
    const uint64_t bytes = TMV_PANEL_KEPT_BYTES(rate, ceiling) + TMV_PANEL_SCRATCH_BYTES(rate, ceiling) + 8 * TMV_SCAN_WORDS;
    tried++;
    same(9, TMV_PANEL_ENVELOPE_LEN(rate, ceiling), tmv_panel_envelope_len(rate, ceiling), "TMV_PANEL_ENVELOPE_LEN", rate, ceiling);
    if (bytes > most_panel)
        most_panel = bytes;
}

static void fine_at(uint32_t span)
{
    tried++;
    same(5, TMV_FINE_FRAME_LEN(span), tmv_fine_frame_len(span), "TMV_FINE_FRAME_LEN", span, 0);
    same(6, TMV_FINE_WINDOW_LEN(span), tmv_fine_window_len(span), "TMV_FINE_WINDOW_LEN", span, 0);
    same(7, TMV_FINE_CORRELATION_LEN(span), tmv_fine_correlation_len(span), "TMV_FINE_CORRELATION_LEN", span, 0);
    same(8, TMV_FINE_TRANSFORM_LEN(span), tmv_fine_transform_len(span), "TMV_FINE_TRANSFORM_LEN", span, 0);
}

static void every_ceiling(uint32_t rate)
{
    for (uint32_t ceiling = 0; ceiling <= 4001; ceiling++) {
        scan_at(rate, ceiling);
        panel_at(rate, ceiling);
    }
}

static void the_largest(void)
{
    const uint64_t most[KINDS] = {TMV_SCAN_ENVELOPE_MOST, TMV_SCAN_LEVELS_MOST, TMV_SCAN_WINDOW_MOST, TMV_SCAN_PREFIX_MOST, TMV_SCAN_LAGS_MOST, TMV_FINE_FRAME_MOST, TMV_FINE_WINDOW_MOST, TMV_FINE_CORRELATION_MOST, TMV_FINE_WINDOW_MOST, TMV_PANEL_ENVELOPE_MOST};
    for (size_t i = 0; i < KINDS; i++) {
        if (most[i] == most_seen[i])
            continue;
        different++;
        printf("sizes: the largest of list %lu is %llu, and not %llu\n", (unsigned long)i, (unsigned long long)most_seen[i], (unsigned long long)most[i]);
    }
    if (most_panel == TMV_PANEL_BYTES_MOST)
        return;
    different++;
    printf("sizes: the most bytes of a panel are %llu\n", (unsigned long long)most_panel);
}

/* Memory that was parted at run time is what the types have. */
static void lent(void)
{
    struct tmv_scan scan;
    struct tmv_panel panel;
    struct tmv_pair pair;
    struct tmv_fine fine;
    const size_t bytes = TMV_SCAN_KEPT_BYTES(48000, 500), more = TMV_SCAN_SCRATCH_BYTES(48000, 500), two = TMV_PAIR_KEPT_BYTES(48000, 500);
    const size_t panel_bytes = TMV_PANEL_KEPT_BYTES(16000, 320), panel_more = TMV_PANEL_SCRATCH_BYTES(16000, 320);
    void *first = malloc(bytes), *second = malloc(more), *third = malloc(TMV_FINE_KEPT_BYTES(4096)), *fourth = malloc(two);
    bool good = first && second && third && fourth;
    good = good && sizeof kept - bytes < 8 && sizeof scratch - more < 8 && sizeof frames == TMV_FINE_KEPT_BYTES(4096);
    good = good && tmvt_scan_lend(&scan, 7999, 500, first, bytes, second, more) == TMVT_OUTSIDE_TABLE;
    good = good && tmvt_scan_lend(&scan, 48000, 500, first, bytes - 1, second, more) == TMVT_WRONG_LENGTH;
    good = good && tmvt_scan_lend(&scan, 48000, 500, first, bytes, second, more - 1) == TMVT_WRONG_LENGTH;
    good = good && tmvt_scan_lend(&scan, 48000, 500, (char *)first + 4, bytes, second, more) == TMVT_WRONG_LENGTH;
    good = good && tmvt_scan_lend(&scan, 48000, 500, first, bytes, second, more) == TMVT_ACCEPTED;
    good = good && (char *)(scan.levels + scan.levels_len) == (char *)first + bytes && (char *)(scan.window + scan.window_len) == (char *)second + more;
    good = good && tmvt_scan_new(&scan, 48000, 500) == TMVT_ACCEPTED;
    good = good && sizeof both - two < 8 && TMV_PAIR_SCRATCH_BYTES(48000, 500) == more;
    good = good && tmvt_pair_lend(&pair, 7999, 500, fourth, two, second, more) == TMVT_OUTSIDE_TABLE;
    good = good && tmvt_pair_lend(&pair, 48000, 500, fourth, two - 1, second, more) == TMVT_WRONG_LENGTH;
    good = good && tmvt_pair_lend(&pair, 48000, 500, fourth, two, second, more - 1) == TMVT_WRONG_LENGTH;
    good = good && tmvt_pair_lend(&pair, 48000, 500, (char *)fourth + 4, two, second, more) == TMVT_WRONG_LENGTH;
    good = good && tmvt_pair_lend(&pair, 48000, 500, fourth, two, second, more) == TMVT_ACCEPTED;
    good = good && (char *)(pair.levels[1] + pair.levels_len) == (char *)fourth + two && (char *)(pair.window + pair.window_len) == (char *)second + more;
    good = good && tmvt_pair_new(&pair, 48000, 500) == TMVT_ACCEPTED;
    good = good && sizeof narrow - panel_bytes < 8 && sizeof narrow_scratch - panel_more < 8 && panel_bytes < bytes && panel_more < more;
    good = good && tmvt_panel_lend(&panel, 48000, 320, first, bytes, second, more) == TMVT_OUTSIDE_TABLE && tmvt_panel_lend(&panel, 16000, 321, first, bytes, second, more) == TMVT_OUTSIDE_TABLE;
    good = good && tmvt_panel_lend(&panel, 16000, 320, first, panel_bytes - 1, second, panel_more) == TMVT_WRONG_LENGTH;
    good = good && tmvt_panel_lend(&panel, 16000, 320, first, panel_bytes, second, panel_more - 1) == TMVT_WRONG_LENGTH;
    good = good && tmvt_panel_lend(&panel, 16000, 320, first, panel_bytes, second, panel_more) == TMVT_ACCEPTED;
    good = good && (char *)(panel.held.levels + panel.held.levels_len) == (char *)first + panel_bytes && (char *)(panel.held.window + panel.held.window_len) == (char *)second + panel_more;
    good = good && tmvt_panel_new(&panel, 16000, 320) == TMVT_ACCEPTED;
    good = good && tmvt_fine_lend(&fine, 0, third, 8 * 4096) == TMVT_OUTSIDE_TABLE && tmvt_fine_lend(&fine, 4096, third, 8 * 4096 - 1) == TMVT_WRONG_LENGTH;
    good = good && tmvt_fine_lend(&fine, 4096, third, 8 * 4096) == TMVT_ACCEPTED && tmvt_fine_new(&fine, 4096) == TMVT_ACCEPTED;
    different += !good;
    printf("sizes: memory parted at run time %s\n", good ? "is what the types have" : "IS NOT what the types have");
    free(first);
    free(second);
    free(third);
    free(fourth);
}

int main(int count, char **words)
{
    const bool full = count == 2 && strcmp(words[1], "full") == 0;
    if (full)
        for (uint32_t rate = 7999; rate <= 192001; rate++)
            every_ceiling(rate);
    for (uint32_t rate = 7999; rate <= 192001; rate++)
        for (size_t i = 0; i < TMV_COUNT(some_ceilings); i++)
            scan_at(rate, some_ceilings[i]), panel_at(rate, some_ceilings[i]);
    for (size_t i = 0; i < TMV_COUNT(some_rates); i++)
        every_ceiling(some_rates[i]);
    for (uint32_t span = 0; span <= 32769; span++)
        fine_at(span);
    fine_at(UINT32_MAX);
    the_largest();
    lent();
    printf("sizes: %lu settings, %lu different\n", tried, different);
    return different != 0;
}
