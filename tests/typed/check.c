/* Every call of trimolaveg_typed.h, as a host makes it: what it hands out, and that a refused one hands out nothing. The echo itself is found by examples/c. */
#include "trimolaveg_typed.h"

#include <math.h>
#include <stdio.h>

#define RATE 48000
#define CEILING 500
#define SPAN 128

static int failures;
#define EXPECT(holds) expect((holds), #holds, __LINE__)
static void expect(bool holds, const char *what, int line)
{
    if (holds)
        return;
    failures++;
    printf("typed: line %d: %s\n", line, what);
}

static bool is(const char *text, const char *due)
{
    return strcmp(text, due) == 0;
}

static void scan(void)
{
    static TMV_SCAN_KEPT(RATE, CEILING) kept;
    static TMV_SCAN_SCRATCH(RATE, CEILING) scratch;
    static struct tmv_scan scan = TMV_SCAN_OVER(kept, scratch);
    const float played[2] = {0.5f, NAN};
    struct tmv_frame frame = {TMVT_FRAME_FLAT, 1, 2, 3, 4};
    struct tmv_region region = {true, 1, 2};
    enum tmv_taking taking = TMVT_TAKING_DROPPED;
    uint64_t number = 0, index = 0;
    float correlation = 1;
    bool flag = true;

    EXPECT(tmvt_scan_frames(&scan, &number) == TMVT_OUTSIDE_TABLE && number == 0);
    EXPECT(tmvt_scan_new(&scan, RATE, CEILING + 1) == TMVT_WRONG_LENGTH);
    EXPECT(tmvt_scan_new(&scan, RATE, CEILING) == TMVT_ACCEPTED);
    EXPECT(tmvt_scan_push_far(&scan, played, 1) == TMVT_ACCEPTED);
    EXPECT(tmvt_scan_push_far(&scan, played, 2) == TMVT_NOT_FINITE);
    EXPECT(tmvt_scan_observe(&scan, &frame) == TMVT_NO_FULL_FRAME && frame.kind == TMVT_FRAME_FLAT && frame.delay == 2 && frame.products == 4);
    EXPECT(tmvt_scan_push_near(&scan, 0.5f, UINT64_C(1) << 62, &taking) == TMVT_TOO_LARGE && taking == TMVT_TAKING_DROPPED);
    while (!tmvt_scan_push_near(&scan, 0.5f, index, &taking) && taking == TMVT_TAKING_TAKEN)
        index++;
    EXPECT(taking == TMVT_TAKING_FULL && index + 1 == 48 * TMV_SCAN_LEVELS_LEN(RATE, CEILING));
    EXPECT(tmvt_scan_push_near(&scan, 0.5f, index + 1, &taking) == TMVT_FRAME_WAITS);
    EXPECT(tmvt_scan_observe(&scan, &frame) == TMVT_ACCEPTED && frame.kind == TMVT_FRAME_UNCOVERED && frame.delay == 0 && frame.peak == 0 && frame.products == 0);
    EXPECT(tmvt_scan_region(&scan, &region) == TMVT_ACCEPTED && !region.found && region.delay == 0);
    EXPECT(tmvt_scan_bin_samples(&scan, &number) == TMVT_ACCEPTED && number == 48);
    EXPECT(tmvt_scan_ceiling_samples(&scan, &number) == TMVT_ACCEPTED && number == 24000);
    EXPECT(tmvt_scan_frames(&scan, &number) == TMVT_ACCEPTED && number == 0);
    EXPECT(tmvt_scan_correlation(&scan, &correlation) == TMVT_ACCEPTED && correlation == 0);
    EXPECT(tmvt_scan_finished(&scan, &flag) == TMVT_ACCEPTED && !flag);
    EXPECT(tmvt_scan_exhausted(&scan, &flag) == TMVT_ACCEPTED && !flag);
    EXPECT(tmvt_scan_beyond_ceiling(&scan, &flag) == TMVT_ACCEPTED && !flag);
    EXPECT(!tmvt_scan_discard_near(&scan) && !tmvt_scan_rearm(&scan) && !tmvt_scan_reset(&scan));
    scan.state[23] = 1;
    EXPECT(tmvt_scan_finished(&scan, &flag) == TMVT_ACCEPTED && flag);
    scan.state[23] = 2;
    EXPECT(tmvt_scan_finished(&scan, &flag) == TMVT_BROKEN_STATE && flag);
}

static void panel(void)
{
    static TMV_PANEL_KEPT(16000, 320) kept;
    static TMV_PANEL_SCRATCH(16000, 320) scratch;
    static struct tmv_panel panel = TMV_PANEL_OVER(kept, scratch);
    const float played[2] = {0.5f, NAN}, heard[3] = {0.5f, 0.25f, NAN};
    struct tmv_frame frame = {TMVT_FRAME_FLAT, 1, 2, 3, 4};
    struct tmv_region region = {true, 1, 2};
    enum tmv_taking taking = TMVT_TAKING_DROPPED;
    uint64_t number = 0, index = 2;
    size_t taken = 7;
    float correlation = 1;
    bool flag = true;

    EXPECT(tmvt_panel_frames(&panel, &number) == TMVT_OUTSIDE_TABLE && number == 0);
    EXPECT(tmvt_panel_new(&panel, 12000, 320) == TMVT_OUTSIDE_TABLE && tmvt_panel_new(&panel, 16000, 7) == TMVT_OUTSIDE_TABLE && tmvt_panel_new(&panel, 16000, 321) == TMVT_OUTSIDE_TABLE);
    EXPECT(tmvt_panel_new(&panel, 16000, 319) == TMVT_WRONG_LENGTH && tmvt_scan_new(&panel.held, 16000, 320) == TMVT_WRONG_LENGTH);
    EXPECT(tmvt_panel_new(&panel, 16000, 320) == TMVT_ACCEPTED);
    EXPECT(tmvt_panel_push_far(&panel, played, 1) == TMVT_ACCEPTED);
    EXPECT(tmvt_panel_push_far(&panel, played, 2) == TMVT_NOT_FINITE);
    EXPECT(tmvt_panel_observe(&panel, &frame) == TMVT_NO_FULL_FRAME && frame.kind == TMVT_FRAME_FLAT && frame.delay == 2 && frame.products == 4);
    EXPECT(tmvt_panel_push_near_run(&panel, heard, 3, 0, &taking, &taken) == TMVT_NOT_FINITE && taken == 7 && taking == TMVT_TAKING_DROPPED);
    EXPECT(tmvt_panel_push_near_run(&panel, heard, 2, 0, &taking, &taken) == TMVT_ACCEPTED && taken == 2 && taking == TMVT_TAKING_TAKEN);
    while (!tmvt_panel_push_near(&panel, 0.5f, index, &taking) && taking == TMVT_TAKING_TAKEN)
        index++;
    EXPECT(taking == TMVT_TAKING_FULL && index + 1 == 16 * TMV_SCAN_LEVELS_LEN(16000, 320));
    EXPECT(tmvt_panel_push_near(&panel, 0.5f, index + 1, &taking) == TMVT_FRAME_WAITS);
    EXPECT(tmvt_panel_observe(&panel, &frame) == TMVT_ACCEPTED && frame.kind == TMVT_FRAME_UNCOVERED && frame.delay == 0 && frame.products == 0);
    EXPECT(tmvt_panel_region(&panel, &region) == TMVT_ACCEPTED && !region.found && region.delay == 0);
    EXPECT(tmvt_panel_bin_samples(&panel, &number) == TMVT_ACCEPTED && number == 16);
    EXPECT(tmvt_panel_ceiling_samples(&panel, &number) == TMVT_ACCEPTED && number == 5120);
    EXPECT(tmvt_panel_frames(&panel, &number) == TMVT_ACCEPTED && number == 0);
    EXPECT(tmvt_panel_correlation(&panel, &correlation) == TMVT_ACCEPTED && correlation == 0);
    EXPECT(tmvt_panel_finished(&panel, &flag) == TMVT_ACCEPTED && !flag);
    EXPECT(tmvt_panel_exhausted(&panel, &flag) == TMVT_ACCEPTED && !flag);
    EXPECT(tmvt_panel_beyond_ceiling(&panel, &flag) == TMVT_ACCEPTED && !flag);
    EXPECT(!tmvt_panel_discard_near(&panel) && !tmvt_panel_rearm(&panel) && !tmvt_panel_reset(&panel));
    EXPECT(tmvt_scan_finished(&panel.held, &flag) == TMVT_ACCEPTED && !flag);
}

static void pair(void)
{
    static TMV_PAIR_KEPT(RATE, CEILING) kept;
    static TMV_PAIR_SCRATCH(RATE, CEILING) scratch;
    static struct tmv_pair pair = TMV_PAIR_OVER(kept, scratch);
    const float played[2] = {0.5f, NAN}, heard[3] = {0.5f, 0.25f, NAN};
    struct tmv_frame frame = {TMVT_FRAME_FLAT, 1, 2, 3, 4};
    struct tmv_region region = {true, 1, 2};
    enum tmv_taking taking = TMVT_TAKING_DROPPED;
    uint64_t number = 0, index = 0;
    size_t taken = 7;
    float correlation = 1;
    bool flag = true;

    EXPECT(tmv_pair_words() == TMV_PAIR_WORDS);
    EXPECT(tmvt_pair_frames(&pair, 0, &number) == TMVT_OUTSIDE_TABLE && tmvt_pair_frames(&pair, 2, &number) == TMVT_NO_SUCH_CHANNEL && number == 0);
    EXPECT(tmvt_pair_new(&pair, RATE, CEILING + 1) == TMVT_WRONG_LENGTH);
    EXPECT(tmvt_pair_new(&pair, RATE, CEILING) == TMVT_ACCEPTED);
    EXPECT(tmvt_pair_push_far(&pair, played, 1) == TMVT_ACCEPTED);
    EXPECT(tmvt_pair_push_far(&pair, played, 2) == TMVT_NOT_FINITE);
    EXPECT(tmvt_pair_push_near(&pair, 3, 0.5f, 0, &taking) == TMVT_NO_SUCH_CHANNEL && taking == TMVT_TAKING_DROPPED);
    EXPECT(tmvt_pair_push_near_run(&pair, 1, heard, 3, 0, &taking, &taken) == TMVT_NOT_FINITE && taken == 7);
    EXPECT(tmvt_pair_push_near_run(&pair, 1, heard, 2, 0, &taking, &taken) == TMVT_ACCEPTED && taking == TMVT_TAKING_TAKEN && taken == 2);
    while (!tmvt_pair_push_near(&pair, 0, 0.5f, index, &taking) && taking == TMVT_TAKING_TAKEN)
        index++;
    EXPECT(taking == TMVT_TAKING_FULL && index + 1 == 48 * TMV_SCAN_LEVELS_LEN(RATE, CEILING));
    EXPECT(tmvt_pair_push_near(&pair, 0, 0.5f, index + 1, &taking) == TMVT_FRAME_WAITS);
    EXPECT(tmvt_pair_push_near(&pair, 1, 0.5f, 2, &taking) == TMVT_ACCEPTED && taking == TMVT_TAKING_TAKEN);
    EXPECT(tmvt_pair_observe(&pair, 1, &frame) == TMVT_NO_FULL_FRAME && frame.kind == TMVT_FRAME_FLAT && frame.products == 4);
    EXPECT(tmvt_pair_observe(&pair, 0, &frame) == TMVT_ACCEPTED && frame.kind == TMVT_FRAME_UNCOVERED && frame.delay == 0 && frame.products == 0);
    EXPECT(tmvt_pair_observe(&pair, 2, &frame) == TMVT_NO_SUCH_CHANNEL);
    EXPECT(tmvt_pair_region(&pair, 0, &region) == TMVT_ACCEPTED && !region.found && region.delay == 0);
    EXPECT(tmvt_pair_bin_samples(&pair, &number) == TMVT_ACCEPTED && number == 48);
    EXPECT(tmvt_pair_ceiling_samples(&pair, &number) == TMVT_ACCEPTED && number == 24000);
    EXPECT(tmvt_pair_frames(&pair, 1, &number) == TMVT_ACCEPTED && number == 0);
    EXPECT(tmvt_pair_correlation(&pair, 1, &correlation) == TMVT_ACCEPTED && correlation == 0);
    EXPECT(tmvt_pair_exhausted(&pair, 1, &flag) == TMVT_ACCEPTED && !flag);
    EXPECT(tmvt_pair_beyond_ceiling(&pair, 1, &flag) == TMVT_ACCEPTED && !flag);
    EXPECT(!tmvt_pair_discard_near(&pair, 0) && !tmvt_pair_rearm(&pair, 1));
    pair.state[36] = 2; /* a flag of channel 1: only its own calls and a reset see it */
    EXPECT(tmvt_pair_finished(&pair, 1, &flag) == TMVT_BROKEN_STATE && tmvt_pair_reset(&pair) == TMVT_BROKEN_STATE);
    EXPECT(tmvt_pair_finished(&pair, 0, &flag) == TMVT_ACCEPTED && !flag && tmvt_pair_push_far(&pair, played, 1) == TMVT_ACCEPTED);
    pair.state[36] = 1;
    EXPECT(tmvt_pair_finished(&pair, 1, &flag) == TMVT_ACCEPTED && flag && tmvt_pair_reset(&pair) == TMVT_ACCEPTED);
}

static void fine(void)
{
    static TMV_FINE_KEPT(SPAN) kept;
    static struct tmv_fine fine = TMV_FINE_OVER(kept);
    static float window[TMV_FINE_WINDOW_LEN(SPAN)], correlation[TMV_FINE_CORRELATION_LEN(SPAN)];
    struct tmv_candidate candidate = {true, 1, 2, 3, 4};
    struct tmv_position position = {true, 1, 1};
    struct tmv_range range = {1, 1};
    enum tmv_fine_taking taking = TMVT_FINE_TAKEN;
    enum tmv_gate gate = TMVT_GATE_SKIPPED;
    enum tmv_rescan rescan = TMVT_RESCAN_SKIPPED;
    size_t taken = 9;
    uint64_t number = 1;
    double ratio = 1;

    for (size_t i = 0; i < TMV_COUNT(window); i++)
        window[i] = 0.5f;
    for (size_t i = 0; i < TMV_COUNT(correlation); i++)
        correlation[i] = 0.01f;
    EXPECT(tmvt_fine_new(&fine, 0) == TMVT_OUTSIDE_TABLE && tmvt_fine_new(&fine, SPAN) == TMVT_ACCEPTED);
    EXPECT(tmvt_fine_rescan(&fine, window, TMV_COUNT(window), 0, 0, &rescan) == TMVT_ACCEPTED && rescan == TMVT_RESCAN_NOTHING_RETAINED);
    for (int round = 0; round < 2; round++) {
        EXPECT(tmvt_fine_push_near_run(&fine, window, 3, &taking, &taken) == TMVT_ACCEPTED && taking == TMVT_FINE_TAKEN && taken == 3);
        for (size_t i = 3; i < TMV_FINE_FRAME_LEN(SPAN); i++)
            EXPECT(tmvt_fine_push_near(&fine, 0.25f, &taking) == TMVT_ACCEPTED);
        EXPECT(taking == TMVT_FINE_FULL && tmvt_fine_push_near(&fine, 0.25f, &taking) == TMVT_FRAME_WAITS);
        EXPECT(tmvt_fine_push_near_run(&fine, window, 2, &taking, &taken) == TMVT_FRAME_WAITS && tmvt_fine_push_near_run(&fine, window, 0, &taking, &taken) == TMVT_ACCEPTED);
        EXPECT(taking == TMVT_FINE_TAKEN && taken == 0);
        EXPECT(tmvt_fine_gate(&fine, window, TMV_COUNT(window) - 1, 0, 0, &gate) == TMVT_WRONG_LENGTH);
        EXPECT(tmvt_fine_gate(&fine, window, TMV_COUNT(window), 0, 0, &gate) == TMVT_ACCEPTED && gate == (round == 0 ? TMVT_GATE_FIRST : TMVT_GATE_LATER));
    }
    EXPECT(tmvt_fine_rescan(&fine, window, TMV_COUNT(window), 0, 0, &rescan) == TMVT_ACCEPTED && rescan == TMVT_RESCAN_TAKEN);
    EXPECT(tmvt_fine_last_scan_peak_at(&fine, &position) == TMVT_ACCEPTED && !position.scanned && position.first == 0 && position.last == 0);
    EXPECT(tmvt_fine_peak(&fine, correlation, TMV_COUNT(correlation), &candidate) == TMVT_ACCEPTED && !candidate.found && candidate.ratio == 0);
    EXPECT(candidate.first == 0 && candidate.last == TMV_COUNT(correlation) - 1);
    correlation[77] = 1;
    EXPECT(tmvt_fine_peak(&fine, correlation, TMV_COUNT(correlation), &candidate) == TMVT_ACCEPTED && candidate.found && candidate.first == 77 && candidate.last == 77);
    EXPECT(tmvt_fine_last_scan_peak_at(&fine, &position) == TMVT_ACCEPTED && position.scanned && position.first == 77 && position.last == 77);
    EXPECT(tmvt_fine_last_scan_ratio(&fine, &ratio) == TMVT_ACCEPTED && ratio == candidate.ratio);
    EXPECT(tmvt_fine_last_scan_origin(&fine, &number) == TMVT_ACCEPTED && number == 0);
    EXPECT(tmvt_fine_scans(&fine, &number) == TMVT_ACCEPTED && number == 2);
    EXPECT(tmvt_fine_frames(&fine, &number) == TMVT_ACCEPTED && number == 2);
    EXPECT(tmvt_fine_skipped(&fine, &number) == TMVT_ACCEPTED && number == 0);
    EXPECT(tmvt_fine_frame_len(&fine, &number) == TMVT_ACCEPTED && number == TMV_FINE_FRAME_LEN(SPAN));
    EXPECT(tmvt_fine_window_len(&fine, &number) == TMVT_ACCEPTED && number == TMV_FINE_WINDOW_LEN(SPAN));
    EXPECT(tmvt_fine_max_delay(&fine, &number) == TMVT_ACCEPTED && number == SPAN);
    EXPECT(tmvt_fine_relocate(&fine, UINT64_C(1) << 62) == TMVT_TOO_LARGE && tmvt_fine_relocate(&fine, 500) == TMVT_ACCEPTED);
    EXPECT(tmvt_fine_search_range(&fine, &range) == TMVT_ACCEPTED && range.first == 500 && range.last == 628);
    EXPECT(tmvt_fine_window_back_off(&fine, &number) == TMVT_ACCEPTED && number == 628);
    EXPECT(!tmvt_fine_restart(&fine) && !tmvt_fine_reset(&fine));
}

static void tracker(void)
{
    struct tmv_tracker tracker;
    struct tmv_verdict verdict = {TMVT_VERDICT_MOVE, 7};
    uint64_t number = 1;
    bool flag = false;

    EXPECT(tmvt_tracker_new(&tracker, 192001) == TMVT_OUTSIDE_TABLE && tmvt_tracker_new(&tracker, RATE) == TMVT_ACCEPTED);
    EXPECT(tmvt_tracker_on_cycle(&tracker, 0, TMVT_CYCLE_EDGE, UINT64_C(1) << 62, &verdict) == TMVT_TOO_LARGE && verdict.alignment == 7);
    EXPECT(tmvt_tracker_on_cycle(&tracker, 1000, TMVT_CYCLE_INTERIOR, 1400, &verdict) == TMVT_ACCEPTED && verdict.kind == TMVT_VERDICT_HOLD && verdict.alignment == 0);
    for (int i = 0; i < 1000 && verdict.kind == TMVT_VERDICT_HOLD; i++)
        EXPECT(tmvt_tracker_on_cycle(&tracker, 1000, TMVT_CYCLE_UNCONFIDENT, 0, &verdict) == TMVT_ACCEPTED);
    EXPECT(verdict.kind == TMVT_VERDICT_REACQUIRE_LOST && is(tmvt_verdict_text(verdict.kind), "reacquire lost"));
    EXPECT(tmvt_tracker_on_discontinuity(&tracker) == TMVT_ACCEPTED);
    EXPECT(tmvt_tracker_suspect(&tracker, &flag) == TMVT_ACCEPTED && flag);
    EXPECT(tmvt_tracker_quiescent(&tracker, &flag) == TMVT_ACCEPTED && !flag);
    EXPECT(tmvt_tracker_jump_cycles(&tracker, &number) == TMVT_ACCEPTED && number == 0);
    EXPECT(tmvt_tracker_longest_run(&tracker, &number) == TMVT_ACCEPTED && number == 0);
    tracker.state[11] = 3; /* a run, and none on the record */
    EXPECT(tmvt_tracker_longest_run(&tracker, &number) == TMVT_INCONSISTENT_RECORD && number == 0);
}

static void ring(void)
{
    static uint32_t buf[4];
    struct tmv_ring ring = TMV_RING_OVER(buf);
    uint32_t samples[5];
    struct tmv_kept kept = {true, 9};
    struct tmv_missing missing = {9, 9};
    uint32_t patterns[8];
    float floats[5];
    uint64_t number = 1;

    for (uint32_t i = 0; i < 5; i++)
        samples[i] = tmvt_float_bits((float)(i + 1));
    EXPECT(tmvt_ring_new(&ring) == TMVT_ACCEPTED && tmvt_ring_push(&ring, samples, 5) == TMVT_ACCEPTED);
    EXPECT(tmvt_ring_get(&ring, 0, &kept) == TMVT_ACCEPTED && !kept.kept && kept.sample == 0);
    EXPECT(tmvt_ring_get(&ring, 4, &kept) == TMVT_ACCEPTED && kept.kept && kept.sample == 5);
    EXPECT(tmvt_ring_window(&ring, 4, 5, patterns, 8, &missing) == TMVT_ACCEPTED && missing.head == 2 && missing.tail == 2);
    EXPECT(patterns[0] == 0 && patterns[1] == 0 && patterns[2] == samples[1] && patterns[5] == samples[4] && patterns[6] == 0 && patterns[7] == 0);
    EXPECT(tmvt_ring_window_floats(&ring, 1, 0, floats, 5, &missing) == TMVT_ACCEPTED && missing.head == 0 && missing.tail == 1);
    EXPECT(floats[0] == 2 && floats[3] == 5 && floats[4] == 0);
    EXPECT(tmvt_ring_next_abs(&ring, &number) == TMVT_ACCEPTED && number == 5);
    EXPECT(tmvt_ring_capacity(&ring, &number) == TMVT_ACCEPTED && number == 4);
    EXPECT(tmvt_ring_dropped(&ring, &number) == TMVT_ACCEPTED && number == 1);
    EXPECT(tmvt_ring_push_floats(&ring, floats, 2) == TMVT_ACCEPTED && tmvt_ring_get(&ring, 6, &kept) == TMVT_ACCEPTED && kept.kept && kept.sample == 3);
    EXPECT(tmvt_ring_clear(&ring) == TMVT_ACCEPTED && tmvt_ring_next_abs(&ring, &number) == TMVT_ACCEPTED && number == 0);
}

static void texts(void)
{
    EXPECT(is(tmvt_refusal_text(TMVT_NOT_FINITE), "number that is not finite") && is(tmvt_refusal_text(TMVT_ACCEPTED), "accepted"));
    EXPECT(is(tmvt_refusal_text(TMVT_NO_SUCH_CHANNEL), "no such channel"));
    EXPECT(is(tmvt_frame_text(TMVT_FRAME_CROWDED), "crowded") && is(tmvt_taking_text(TMVT_TAKING_FULL), "full"));
    EXPECT(is(tmvt_gate_text(TMVT_GATE_LATER), "later") && is(tmvt_rescan_text(TMVT_RESCAN_TAKEN), "taken"));
    EXPECT(is(tmvt_fine_taking_text(TMVT_FINE_FULL), "full") && is(tmvt_cycle_text(TMVT_CYCLE_EDGE), "edge"));
    EXPECT(tmvt_double(tmvt_double_bits(-0.1)) == -0.1 && tmvt_float(tmvt_float_bits(-0.1f)) == -0.1f);
    EXPECT(tmv_version() == TMV_VERSION);
}

int main(void)
{
    scan();
    panel();
    pair();
    fine();
    tracker();
    ring();
    texts();
    printf("typed: every call, %d wrong\n", failures);
    return failures != 0;
}
