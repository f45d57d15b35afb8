/*
 * trimolaveg.h with types: for each part a struct that holds its state and its lists, and calls on it. Nothing here allocates. Each call is an inline wrapper of the proved call whose name it has.
 *
 * How to call
 *   - Every call returns an enum tmv_refusal, which is 0 if the call was obeyed. So `if (tmvt_scan_observe(&scan, &frame))` asks whether it failed, as is usual in C. What the call found goes to where
 *     the last argument points; a refused call leaves that unchanged.
 *   - Each family of answers is an enum of its own, so a compiler warns of a comparison between two families and of a `switch` that forgets a case.
 *   - Values come as numbers and floats, not as patterns. A value that an answer does not have is 0.
 *
 *   static TMV_SCAN_KEPT(48000, 500) kept;
 *   static TMV_SCAN_SCRATCH(48000, 500) scratch;
 *   static struct tmv_scan scan = TMV_SCAN_OVER(kept, scratch);
 *
 *   if (tmvt_scan_new(&scan, 48000, 500)) ...
 *
 * examples/c/scan.c has this as a program. If rate and ceiling are known only at run time, tmvt_scan_lend divides memory from anywhere into the lists.
 *
 * Threads and interrupts: there is no state besides what the caller lends, so calls on different structs may run at the same time, even in an interrupt. Two calls on one struct, or on two that share
 * scratch, may not, nor may two on the channels of one pair. Every call ends after a number of steps that the lengths of its lists bound. docs/MEMORY.md lists the stack that each takes.
 *
 * What survives an update: the numbers of refusals and answers stay the same within a major version, and from 1.0.0 on so do the words of a state. Before that, make each state anew after an update;
 * CHANGELOG.md names each change of a layout. The compiler lays out the structs of this header: recompile what uses them.
 */
#ifndef TRIMOLAVEG_TYPED_H
#define TRIMOLAVEG_TYPED_H

#include "trimolaveg_sizes.h"

#include <stdbool.h>
#include <string.h>

#if defined(__GNUC__)
#define TMV_MUST_USE __attribute__((warn_unused_result))
#elif defined(__cplusplus) && __cplusplus >= 201703L || defined(__STDC_VERSION__) && __STDC_VERSION__ >= 202311L
#define TMV_MUST_USE [[nodiscard]]
#else
#define TMV_MUST_USE
#endif

/* ---- answers. Each family is a list of names and words, from which the enum and its text are made. */

#define TMV_REFUSALS(each)                            \
    each(OUTSIDE_TABLE, "setting outside the table")  \
    each(WRONG_LENGTH, "list of the wrong length")    \
    each(BROKEN_STATE, "broken state")                \
    each(NOT_FINITE, "number that is not finite")     \
    each(TOO_LARGE, "number of 2^62 or more")         \
    each(FRAME_WAITS, "a full frame waits")           \
    each(NO_FULL_FRAME, "no full frame")              \
    each(INCONSISTENT_RECORD, "inconsistent record")  \
    each(NO_SUCH_CHANNEL, "no such channel")
#define TMV_TAKINGS(each)              \
    each(TAKING_IGNORED, "ignored")    \
    each(TAKING_DROPPED, "dropped")    \
    each(TAKING_TAKEN, "taken")        \
    each(TAKING_FULL, "full")
#define TMV_FRAMES(each)               \
    each(FRAME_UNCOVERED, "uncovered") \
    each(FRAME_AHEAD, "ahead")         \
    each(FRAME_QUIET, "quiet")         \
    each(FRAME_FLAT, "flat")           \
    each(FRAME_BANKED, "banked")       \
    each(FRAME_WEAK, "weak")           \
    each(FRAME_CEILING, "ceiling")     \
    each(FRAME_CROWDED, "crowded")     \
    each(FRAME_REGION, "region")
#define TMV_VERDICTS(each)                             \
    each(VERDICT_HOLD, "hold")                         \
    each(VERDICT_MOVE, "move")                         \
    each(VERDICT_REACQUIRE_EDGE, "reacquire edge")     \
    each(VERDICT_REACQUIRE_LOST, "reacquire lost")     \
    each(VERDICT_REACQUIRE_JUMP, "reacquire jump")     \
    each(VERDICT_REACQUIRE_SEAM, "reacquire seam")
#define TMV_CYCLES(each)                   \
    each(CYCLE_UNCONFIDENT, "unconfident") \
    each(CYCLE_INTERIOR, "interior")       \
    each(CYCLE_EDGE, "edge")
#define TMV_FINE_TAKINGS(each)  \
    each(FINE_TAKEN, "taken")   \
    each(FINE_FULL, "full")
#define TMV_GATES(each)           \
    each(GATE_SKIPPED, "skipped") \
    each(GATE_SILENT, "silent")   \
    each(GATE_FIRST, "first")     \
    each(GATE_LATER, "later")
#define TMV_RESCANS(each)                             \
    each(RESCAN_NOTHING_RETAINED, "nothing retained") \
    each(RESCAN_SKIPPED, "skipped")                   \
    each(RESCAN_SILENT, "silent")                     \
    each(RESCAN_TAKEN, "taken")

#define TMV_AS_ENUMERATOR(name, text) TMVT_##name = TMV_##name,
#define TMV_AS_CASE(name, text) \
    case TMVT_##name:           \
        return text;
#define TMV_FAMILY(type, list, text_of)              \
    enum type { list(TMV_AS_ENUMERATOR) };           \
    static inline const char *text_of(enum type one) \
    {                                                \
        switch (one) {                               \
            list(TMV_AS_CASE)                        \
        }                                            \
        return "no such answer";                     \
    }

/* TMVT_OUTSIDE_TABLE is TMV_OUTSIDE_TABLE with a type, and likewise for the others. */
enum tmv_refusal { TMVT_ACCEPTED = 0, TMV_REFUSALS(TMV_AS_ENUMERATOR) };
static inline const char *tmvt_refusal_text(enum tmv_refusal one)
{
    switch (one) {
    case TMVT_ACCEPTED:
        return "accepted";
        TMV_REFUSALS(TMV_AS_CASE)
    }
    return "no such refusal";
}
TMV_FAMILY(tmv_taking, TMV_TAKINGS, tmvt_taking_text)
TMV_FAMILY(tmv_frame_kind, TMV_FRAMES, tmvt_frame_text)
TMV_FAMILY(tmv_verdict_kind, TMV_VERDICTS, tmvt_verdict_text)
TMV_FAMILY(tmv_cycle, TMV_CYCLES, tmvt_cycle_text)
TMV_FAMILY(tmv_fine_taking, TMV_FINE_TAKINGS, tmvt_fine_taking_text)
TMV_FAMILY(tmv_gate, TMV_GATES, tmvt_gate_text)
TMV_FAMILY(tmv_rescan, TMV_RESCANS, tmvt_rescan_text)

/* ---- conversions between patterns and floats */

static inline float tmvt_float(uint32_t bits)
{
    float value;
    memcpy(&value, &bits, sizeof value);
    return value;
}

static inline double tmvt_double(uint64_t bits)
{
    double value;
    memcpy(&value, &bits, sizeof value);
    return value;
}

static inline uint32_t tmvt_float_bits(float value)
{
    uint32_t bits;
    memcpy(&bits, &value, sizeof bits);
    return bits;
}

static inline uint64_t tmvt_double_bits(double value)
{
    uint64_t bits;
    memcpy(&bits, &value, sizeof bits);
    return bits;
}

/* ---- conversions from what a call returned to a refusal (or none), a flag, an f32 and an f64 */

#define TMV_CALL TMV_MUST_USE static inline enum tmv_refusal

TMV_CALL tmvt_refusal_of(uint32_t number)
{
    return number < TMV_ANSWERED ? (enum tmv_refusal)number : TMVT_ACCEPTED;
}

static inline bool tmvt_answered(uint32_t number)
{
    return tmvt_refusal_of(number) == TMVT_ACCEPTED;
}

TMV_CALL tmvt_flag_of(uint32_t number, bool *flag)
{
    if (tmvt_answered(number))
        *flag = number == TMV_YES;
    return tmvt_refusal_of(number);
}

TMV_CALL tmvt_float_of(uint32_t number, uint64_t bits, float *value)
{
    if (tmvt_answered(number))
        *value = tmvt_float((uint32_t)bits);
    return tmvt_refusal_of(number);
}

TMV_CALL tmvt_double_of(uint32_t number, uint64_t bits, double *value)
{
    if (tmvt_answered(number))
        *value = tmvt_double(bits);
    return tmvt_refusal_of(number);
}

#define TMV_COUNT(list) (sizeof(list) / sizeof *(list))

/* ---- the coarse scan */

struct tmv_scan {
    uint64_t state[TMV_SCAN_WORDS];
    /* kept between calls */
    double *lag_sums;
    size_t lag_sums_len;
    float *envelope;
    size_t envelope_len;
    float *levels;
    size_t levels_len;
    /* scratch, which several scans may share */
    double *prefix;
    size_t prefix_len;
    double *squares;
    size_t squares_len;
    double *scores;
    size_t scores_len;
    float *window;
    size_t window_len;
};

/* Struct types that hold the memory of one scan, for settings that are constants. */
#define TMV_SCAN_KEPT(rate, ceiling)                           \
    struct {                                                   \
        double lag_sums[TMV_SCAN_LAGS_LEN(rate, ceiling)];     \
        float envelope[TMV_SCAN_ENVELOPE_LEN(rate, ceiling)];  \
        float levels[TMV_SCAN_LEVELS_LEN(rate, ceiling)];      \
    }
#define TMV_SCAN_SCRATCH(rate, ceiling)                       \
    struct {                                                  \
        double prefix[TMV_SCAN_PREFIX_LEN(rate, ceiling)];    \
        double squares[TMV_SCAN_PREFIX_LEN(rate, ceiling)];   \
        double scores[TMV_SCAN_LAGS_LEN(rate, ceiling)];      \
        float window[TMV_SCAN_WINDOW_LEN(rate, ceiling)];     \
    }

/* Initializes a struct tmv_scan over two such objects. */
#define TMV_SCAN_OVER(kept, scratch)                                                                                      \
    {                                                                                                                     \
        {0}, (kept).lag_sums, TMV_COUNT((kept).lag_sums), (kept).envelope, TMV_COUNT((kept).envelope), (kept).levels,     \
            TMV_COUNT((kept).levels), (scratch).prefix, TMV_COUNT((scratch).prefix), (scratch).squares,                   \
            TMV_COUNT((scratch).squares), (scratch).scores, TMV_COUNT((scratch).scores), (scratch).window,                \
            TMV_COUNT((scratch).window)                                                                                   \
    }

/* Whether memory is large enough, and aligned for a double. */
static inline bool tmvt_serves(const void *memory, size_t bytes, size_t least)
{
    return bytes >= least && (uintptr_t)memory % sizeof(double) == 0;
}

/* Parts memory that serves into the lists of a scan. */
static inline void tmvt_scan_part(struct tmv_scan *scan, uint32_t rate, uint32_t ceiling, size_t envelope, void *kept, void *scratch)
{
    const size_t lags = (size_t)tmv_scan_lags_len(rate, ceiling), prefix = (size_t)tmv_scan_prefix_len(rate, ceiling);
    memset(scan->state, 0, sizeof scan->state);
    scan->lag_sums = (double *)kept;
    scan->lag_sums_len = lags;
    scan->envelope = (float *)(scan->lag_sums + lags);
    scan->envelope_len = envelope;
    scan->levels = scan->envelope + envelope;
    scan->levels_len = (size_t)tmv_scan_levels_len(rate, ceiling);
    scan->prefix = (double *)scratch;
    scan->prefix_len = prefix;
    scan->squares = scan->prefix + prefix;
    scan->squares_len = prefix;
    scan->scores = scan->squares + prefix;
    scan->scores_len = lags;
    scan->window = (float *)(scan->scores + lags);
    scan->window_len = (size_t)tmv_scan_window_len(rate, ceiling);
}

/* Does the same for settings that are known only at run time. The memory must have TMV_SCAN_KEPT_BYTES and TMV_SCAN_SCRATCH_BYTES, or more, must be aligned for a double, and must never be used as anything else.
 * Refuses with 1 if rate or ceiling is outside the table, and with 2 if the memory is too small or not so aligned. */
TMV_CALL tmvt_scan_lend(struct tmv_scan *scan, uint32_t rate, uint32_t ceiling, void *kept, size_t kept_bytes, void *scratch, size_t scratch_bytes)
{
    const size_t envelope = (size_t)tmv_scan_envelope_len(rate, ceiling);
    if (envelope == 0)
        return TMVT_OUTSIDE_TABLE;
    if (!tmvt_serves(kept, kept_bytes, TMV_SCAN_KEPT_BYTES(rate, ceiling)) || !tmvt_serves(scratch, scratch_bytes, TMV_SCAN_SCRATCH_BYTES(rate, ceiling)))
        return TMVT_WRONG_LENGTH;
    tmvt_scan_part(scan, rate, ceiling, envelope, kept, scratch);
    return TMVT_ACCEPTED;
}

/* The answer of a scored frame, and where the echo is. */
struct tmv_frame {
    enum tmv_frame_kind kind;
    float peak;         /* with TMVT_FRAME_BANKED */
    uint64_t delay;     /* with TMVT_FRAME_REGION, in samples */
    double correlation; /* with TMVT_FRAME_REGION */
    uint64_t products;  /* that its lag sums took: 0 up to TMVT_FRAME_FLAT */
};

struct tmv_region {
    bool found;
    uint64_t delay; /* in samples */
    double correlation;
};

TMV_CALL tmvt_taking_of(uint32_t number, enum tmv_taking *taking)
{
    if (tmvt_answered(number))
        *taking = (enum tmv_taking)number;
    return tmvt_refusal_of(number);
}

TMV_CALL tmvt_frame_of(uint32_t number, const uint64_t values[3], struct tmv_frame *frame)
{
    if (tmvt_answered(number)) {
        frame->kind = (enum tmv_frame_kind)number;
        frame->peak = number == TMV_FRAME_BANKED ? tmvt_float((uint32_t)values[0]) : 0;
        frame->delay = number == TMV_FRAME_REGION ? values[0] : 0;
        frame->correlation = number == TMV_FRAME_REGION ? tmvt_double(values[1]) : 0;
        frame->products = values[2];
    }
    return tmvt_refusal_of(number);
}

TMV_CALL tmvt_region_of(uint32_t number, const uint64_t values[2], struct tmv_region *region)
{
    if (tmvt_answered(number)) {
        region->found = number == TMV_REGION_AT;
        region->delay = values[0];
        region->correlation = tmvt_double(values[1]);
    }
    return tmvt_refusal_of(number);
}

TMV_CALL tmvt_scan_new(struct tmv_scan *scan, uint32_t rate, uint32_t ceiling)
{
    return tmvt_refusal_of(tmv_scan_new(scan->state, TMV_SCAN_WORDS, scan->envelope, scan->envelope_len, scan->lag_sums, scan->lag_sums_len, rate, ceiling));
}

TMV_CALL tmvt_scan_reset(struct tmv_scan *scan)
{
    return tmvt_refusal_of(tmv_scan_reset(scan->state, TMV_SCAN_WORDS, scan->envelope, scan->envelope_len, scan->lag_sums, scan->lag_sums_len));
}

TMV_CALL tmvt_scan_rearm(struct tmv_scan *scan)
{
    return tmvt_refusal_of(tmv_scan_rearm(scan->state, TMV_SCAN_WORDS, scan->lag_sums, scan->lag_sums_len));
}

TMV_CALL tmvt_scan_discard_near(struct tmv_scan *scan)
{
    return tmvt_refusal_of(tmv_scan_discard_near(scan->state, TMV_SCAN_WORDS, scan->lag_sums, scan->lag_sums_len));
}

TMV_CALL tmvt_scan_push_far(struct tmv_scan *scan, const float *samples, size_t count)
{
    return tmvt_refusal_of(tmv_scan_push_far(scan->state, TMV_SCAN_WORDS, scan->envelope, scan->envelope_len, samples, count));
}

TMV_CALL tmvt_scan_push_near(struct tmv_scan *scan, float sample, uint64_t index, enum tmv_taking *taking)
{
    return tmvt_taking_of(tmv_scan_push_near(scan->state, TMV_SCAN_WORDS, scan->levels, scan->levels_len, sample, index), taking);
}

/* `taken` is how many of the samples were taken. */
TMV_CALL tmvt_scan_push_near_run(struct tmv_scan *scan, const float *samples, size_t count, uint64_t first, enum tmv_taking *taking, size_t *taken)
{
    uint64_t values[1] = {0};
    const uint32_t number = tmv_scan_push_near_run(scan->state, TMV_SCAN_WORDS, scan->levels, scan->levels_len, samples, count, first, values, 1);
    if (tmvt_answered(number))
        *taken = (size_t)values[0];
    return tmvt_taking_of(number, taking);
}

TMV_CALL tmvt_scan_observe(struct tmv_scan *scan, struct tmv_frame *frame)
{
    uint64_t values[3] = {0, 0, 0};
    const uint32_t number = tmv_scan_observe(scan->state, TMV_SCAN_WORDS, scan->envelope, scan->envelope_len, scan->levels, scan->levels_len, scan->window, scan->window_len, scan->prefix,
                                             scan->prefix_len, scan->squares, scan->squares_len, scan->scores, scan->scores_len, scan->lag_sums, scan->lag_sums_len, values, 3);
    return tmvt_frame_of(number, values, frame);
}

TMV_CALL tmvt_scan_region(const struct tmv_scan *scan, struct tmv_region *region)
{
    uint64_t values[2] = {0, 0};
    const uint32_t number = tmv_scan_region(scan->state, TMV_SCAN_WORDS, values, 2);
    return tmvt_region_of(number, values, region);
}

TMV_CALL tmvt_scan_bin_samples(const struct tmv_scan *scan, uint64_t *samples)
{
    return tmvt_refusal_of(tmv_scan_bin_samples(scan->state, TMV_SCAN_WORDS, samples, 1));
}

TMV_CALL tmvt_scan_ceiling_samples(const struct tmv_scan *scan, uint64_t *samples)
{
    return tmvt_refusal_of(tmv_scan_ceiling_samples(scan->state, TMV_SCAN_WORDS, samples, 1));
}

TMV_CALL tmvt_scan_frames(const struct tmv_scan *scan, uint64_t *frames)
{
    return tmvt_refusal_of(tmv_scan_frames(scan->state, TMV_SCAN_WORDS, frames, 1));
}

TMV_CALL tmvt_scan_correlation(const struct tmv_scan *scan, float *correlation)
{
    uint64_t bits = 0;
    const uint32_t number = tmv_scan_correlation(scan->state, TMV_SCAN_WORDS, &bits, 1);
    return tmvt_float_of(number, bits, correlation);
}

TMV_CALL tmvt_scan_beyond_ceiling(const struct tmv_scan *scan, bool *beyond)
{
    return tmvt_flag_of(tmv_scan_beyond_ceiling(scan->state, TMV_SCAN_WORDS), beyond);
}

TMV_CALL tmvt_scan_finished(const struct tmv_scan *scan, bool *finished)
{
    return tmvt_flag_of(tmv_scan_finished(scan->state, TMV_SCAN_WORDS), finished);
}

TMV_CALL tmvt_scan_exhausted(const struct tmv_scan *scan, bool *exhausted)
{
    return tmvt_flag_of(tmv_scan_exhausted(scan->state, TMV_SCAN_WORDS), exhausted);
}

/* ---- the panel: a scan of the narrow profile. Its memory is a scan's but for a shorter envelope. */

struct tmv_panel {
    struct tmv_scan held;
};

#define TMV_PANEL_KEPT(rate, ceiling)                           \
    struct {                                                    \
        double lag_sums[TMV_SCAN_LAGS_LEN(rate, ceiling)];      \
        float envelope[TMV_PANEL_ENVELOPE_LEN(rate, ceiling)];  \
        float levels[TMV_SCAN_LEVELS_LEN(rate, ceiling)];       \
    }
#define TMV_PANEL_SCRATCH(rate, ceiling) TMV_SCAN_SCRATCH(rate, ceiling)
#define TMV_PANEL_OVER(kept, scratch) {TMV_SCAN_OVER(kept, scratch)}

/* Divides memory as tmvt_scan_lend does: TMV_PANEL_KEPT_BYTES and TMV_PANEL_SCRATCH_BYTES, or more. */
TMV_CALL tmvt_panel_lend(struct tmv_panel *panel, uint32_t rate, uint32_t ceiling, void *kept, size_t kept_bytes, void *scratch, size_t scratch_bytes)
{
    const size_t envelope = (size_t)tmv_panel_envelope_len(rate, ceiling);
    if (envelope == 0)
        return TMVT_OUTSIDE_TABLE;
    if (!tmvt_serves(kept, kept_bytes, TMV_PANEL_KEPT_BYTES(rate, ceiling)) || !tmvt_serves(scratch, scratch_bytes, TMV_PANEL_SCRATCH_BYTES(rate, ceiling)))
        return TMVT_WRONG_LENGTH;
    tmvt_scan_part(&panel->held, rate, ceiling, envelope, kept, scratch);
    return TMVT_ACCEPTED;
}

TMV_CALL tmvt_panel_new(struct tmv_panel *panel, uint32_t rate, uint32_t ceiling)
{
    return tmvt_refusal_of(tmv_panel_new(panel->held.state, TMV_SCAN_WORDS, panel->held.envelope, panel->held.envelope_len, panel->held.lag_sums, panel->held.lag_sums_len, rate, ceiling));
}

TMV_CALL tmvt_panel_reset(struct tmv_panel *panel)
{
    return tmvt_refusal_of(tmv_panel_reset(panel->held.state, TMV_SCAN_WORDS, panel->held.envelope, panel->held.envelope_len, panel->held.lag_sums, panel->held.lag_sums_len));
}

TMV_CALL tmvt_panel_rearm(struct tmv_panel *panel)
{
    return tmvt_refusal_of(tmv_panel_rearm(panel->held.state, TMV_SCAN_WORDS, panel->held.lag_sums, panel->held.lag_sums_len));
}

TMV_CALL tmvt_panel_discard_near(struct tmv_panel *panel)
{
    return tmvt_refusal_of(tmv_panel_discard_near(panel->held.state, TMV_SCAN_WORDS, panel->held.lag_sums, panel->held.lag_sums_len));
}

TMV_CALL tmvt_panel_push_far(struct tmv_panel *panel, const float *samples, size_t count)
{
    return tmvt_refusal_of(tmv_panel_push_far(panel->held.state, TMV_SCAN_WORDS, panel->held.envelope, panel->held.envelope_len, samples, count));
}

TMV_CALL tmvt_panel_push_near(struct tmv_panel *panel, float sample, uint64_t index, enum tmv_taking *taking)
{
    return tmvt_taking_of(tmv_panel_push_near(panel->held.state, TMV_SCAN_WORDS, panel->held.levels, panel->held.levels_len, sample, index), taking);
}

/* `taken` is how many of the samples were taken. */
TMV_CALL tmvt_panel_push_near_run(struct tmv_panel *panel, const float *samples, size_t count, uint64_t first, enum tmv_taking *taking, size_t *taken)
{
    uint64_t values[1] = {0};
    const uint32_t number = tmv_panel_push_near_run(panel->held.state, TMV_SCAN_WORDS, panel->held.levels, panel->held.levels_len, samples, count, first, values, 1);
    if (tmvt_answered(number))
        *taken = (size_t)values[0];
    return tmvt_taking_of(number, taking);
}

TMV_CALL tmvt_panel_observe(struct tmv_panel *panel, struct tmv_frame *frame)
{
    uint64_t values[3] = {0, 0, 0};
    const uint32_t number = tmv_panel_observe(panel->held.state, TMV_SCAN_WORDS, panel->held.envelope, panel->held.envelope_len, panel->held.levels, panel->held.levels_len, panel->held.window, panel->held.window_len, panel->held.prefix,
                                              panel->held.prefix_len, panel->held.squares, panel->held.squares_len, panel->held.scores, panel->held.scores_len, panel->held.lag_sums, panel->held.lag_sums_len, values, 3);
    return tmvt_frame_of(number, values, frame);
}

TMV_CALL tmvt_panel_region(const struct tmv_panel *panel, struct tmv_region *region)
{
    uint64_t values[2] = {0, 0};
    const uint32_t number = tmv_panel_region(panel->held.state, TMV_SCAN_WORDS, values, 2);
    return tmvt_region_of(number, values, region);
}

TMV_CALL tmvt_panel_bin_samples(const struct tmv_panel *panel, uint64_t *samples)
{
    return tmvt_refusal_of(tmv_panel_bin_samples(panel->held.state, TMV_SCAN_WORDS, samples, 1));
}

TMV_CALL tmvt_panel_ceiling_samples(const struct tmv_panel *panel, uint64_t *samples)
{
    return tmvt_refusal_of(tmv_panel_ceiling_samples(panel->held.state, TMV_SCAN_WORDS, samples, 1));
}

TMV_CALL tmvt_panel_frames(const struct tmv_panel *panel, uint64_t *frames)
{
    return tmvt_refusal_of(tmv_panel_frames(panel->held.state, TMV_SCAN_WORDS, frames, 1));
}

TMV_CALL tmvt_panel_correlation(const struct tmv_panel *panel, float *correlation)
{
    uint64_t bits = 0;
    const uint32_t number = tmv_panel_correlation(panel->held.state, TMV_SCAN_WORDS, &bits, 1);
    return tmvt_float_of(number, bits, correlation);
}

TMV_CALL tmvt_panel_beyond_ceiling(const struct tmv_panel *panel, bool *beyond)
{
    return tmvt_flag_of(tmv_panel_beyond_ceiling(panel->held.state, TMV_SCAN_WORDS), beyond);
}

TMV_CALL tmvt_panel_finished(const struct tmv_panel *panel, bool *finished)
{
    return tmvt_flag_of(tmv_panel_finished(panel->held.state, TMV_SCAN_WORDS), finished);
}

TMV_CALL tmvt_panel_exhausted(const struct tmv_panel *panel, bool *exhausted)
{
    return tmvt_flag_of(tmv_panel_exhausted(panel->held.state, TMV_SCAN_WORDS), exhausted);
}

/* ---- the pair: two microphones, one loudspeaker. A channel is 0 or 1; any other number is refused with 11. */

struct tmv_pair {
    uint64_t state[TMV_PAIR_WORDS];
    /* kept between calls: the envelope for both, the others by channel */
    float *envelope;
    size_t envelope_len;
    double *lag_sums[2];
    size_t lag_sums_len;
    float *levels[2];
    size_t levels_len;
    /* scratch, which scans and pairs may share */
    double *prefix;
    size_t prefix_len;
    double *squares;
    size_t squares_len;
    double *scores;
    size_t scores_len;
    float *window;
    size_t window_len;
};

/* The kept memory of one pair, for settings that are constants. Its scratch is a TMV_SCAN_SCRATCH. */
#define TMV_PAIR_KEPT(rate, ceiling)                           \
    struct {                                                   \
        double lag_sums[2][TMV_SCAN_LAGS_LEN(rate, ceiling)];  \
        float envelope[TMV_SCAN_ENVELOPE_LEN(rate, ceiling)];  \
        float levels[2][TMV_SCAN_LEVELS_LEN(rate, ceiling)];   \
    }
#define TMV_PAIR_SCRATCH(rate, ceiling) TMV_SCAN_SCRATCH(rate, ceiling)

/* Initializes a struct tmv_pair over two such objects. */
#define TMV_PAIR_OVER(kept, scratch)                                                                                             \
    {                                                                                                                            \
        {0}, (kept).envelope, TMV_COUNT((kept).envelope), {(kept).lag_sums[0], (kept).lag_sums[1]}, TMV_COUNT((kept).lag_sums[0]), \
            {(kept).levels[0], (kept).levels[1]}, TMV_COUNT((kept).levels[0]), (scratch).prefix, TMV_COUNT((scratch).prefix),     \
            (scratch).squares, TMV_COUNT((scratch).squares), (scratch).scores, TMV_COUNT((scratch).scores), (scratch).window,     \
            TMV_COUNT((scratch).window)                                                                                          \
    }

/* Divides memory as tmvt_scan_lend does: TMV_PAIR_KEPT_BYTES and TMV_PAIR_SCRATCH_BYTES, or more. */
TMV_CALL tmvt_pair_lend(struct tmv_pair *pair, uint32_t rate, uint32_t ceiling, void *kept, size_t kept_bytes, void *scratch, size_t scratch_bytes)
{
    const size_t lags = (size_t)tmv_scan_lags_len(rate, ceiling), prefix = (size_t)tmv_scan_prefix_len(rate, ceiling);
    if (lags == 0)
        return TMVT_OUTSIDE_TABLE;
    if (!tmvt_serves(kept, kept_bytes, TMV_PAIR_KEPT_BYTES(rate, ceiling)) || !tmvt_serves(scratch, scratch_bytes, TMV_PAIR_SCRATCH_BYTES(rate, ceiling)))
        return TMVT_WRONG_LENGTH;
    memset(pair->state, 0, sizeof pair->state);
    pair->lag_sums_len = lags;
    pair->lag_sums[0] = (double *)kept;
    pair->lag_sums[1] = pair->lag_sums[0] + lags;
    pair->envelope = (float *)(pair->lag_sums[1] + lags);
    pair->envelope_len = (size_t)tmv_scan_envelope_len(rate, ceiling);
    pair->levels_len = (size_t)tmv_scan_levels_len(rate, ceiling);
    pair->levels[0] = pair->envelope + pair->envelope_len;
    pair->levels[1] = pair->levels[0] + pair->levels_len;
    pair->prefix = (double *)scratch;
    pair->prefix_len = prefix;
    pair->squares = pair->prefix + prefix;
    pair->squares_len = prefix;
    pair->scores = pair->squares + prefix;
    pair->scores_len = lags;
    pair->window = (float *)(pair->scores + lags);
    pair->window_len = (size_t)tmv_scan_window_len(rate, ceiling);
    return TMVT_ACCEPTED;
}

/* The list of a channel. A number that names none gets any: the call refuses before it looks at it. */
#define TMV_OF_CHANNEL(lists, channel) ((lists)[(channel) & 1U])

TMV_CALL tmvt_pair_new(struct tmv_pair *pair, uint32_t rate, uint32_t ceiling)
{
    return tmvt_refusal_of(tmv_pair_new(pair->state, TMV_PAIR_WORDS, pair->envelope, pair->envelope_len, pair->lag_sums[0], pair->lag_sums_len, pair->lag_sums[1], pair->lag_sums_len, rate, ceiling));
}

TMV_CALL tmvt_pair_reset(struct tmv_pair *pair)
{
    return tmvt_refusal_of(tmv_pair_reset(pair->state, TMV_PAIR_WORDS, pair->envelope, pair->envelope_len, pair->lag_sums[0], pair->lag_sums_len, pair->lag_sums[1], pair->lag_sums_len));
}

TMV_CALL tmvt_pair_push_far(struct tmv_pair *pair, const float *samples, size_t count)
{
    return tmvt_refusal_of(tmv_pair_push_far(pair->state, TMV_PAIR_WORDS, pair->envelope, pair->envelope_len, samples, count));
}

TMV_CALL tmvt_pair_push_near(struct tmv_pair *pair, uint32_t channel, float sample, uint64_t index, enum tmv_taking *taking)
{
    return tmvt_taking_of(tmv_pair_push_near(pair->state, TMV_PAIR_WORDS, channel, TMV_OF_CHANNEL(pair->levels, channel), pair->levels_len, sample, index), taking);
}

/* `taken` is how many of the samples were taken. */
TMV_CALL tmvt_pair_push_near_run(struct tmv_pair *pair, uint32_t channel, const float *samples, size_t count, uint64_t first, enum tmv_taking *taking, size_t *taken)
{
    uint64_t values[1] = {0};
    const uint32_t number = tmv_pair_push_near_run(pair->state, TMV_PAIR_WORDS, channel, TMV_OF_CHANNEL(pair->levels, channel), pair->levels_len, samples, count, first, values, 1);
    if (tmvt_answered(number))
        *taken = (size_t)values[0];
    return tmvt_taking_of(number, taking);
}

TMV_CALL tmvt_pair_observe(struct tmv_pair *pair, uint32_t channel, struct tmv_frame *frame)
{
    uint64_t values[3] = {0, 0, 0};
    const uint32_t number = tmv_pair_observe(pair->state, TMV_PAIR_WORDS, channel, pair->envelope, pair->envelope_len, TMV_OF_CHANNEL(pair->levels, channel), pair->levels_len, pair->window,
                                             pair->window_len, pair->prefix, pair->prefix_len, pair->squares, pair->squares_len, pair->scores, pair->scores_len,
                                             TMV_OF_CHANNEL(pair->lag_sums, channel), pair->lag_sums_len, values, 3);
    return tmvt_frame_of(number, values, frame);
}

TMV_CALL tmvt_pair_rearm(struct tmv_pair *pair, uint32_t channel)
{
    return tmvt_refusal_of(tmv_pair_rearm(pair->state, TMV_PAIR_WORDS, channel, TMV_OF_CHANNEL(pair->lag_sums, channel), pair->lag_sums_len));
}

TMV_CALL tmvt_pair_discard_near(struct tmv_pair *pair, uint32_t channel)
{
    return tmvt_refusal_of(tmv_pair_discard_near(pair->state, TMV_PAIR_WORDS, channel, TMV_OF_CHANNEL(pair->lag_sums, channel), pair->lag_sums_len));
}

TMV_CALL tmvt_pair_frames(const struct tmv_pair *pair, uint32_t channel, uint64_t *frames)
{
    return tmvt_refusal_of(tmv_pair_frames(pair->state, TMV_PAIR_WORDS, channel, frames, 1));
}

TMV_CALL tmvt_pair_correlation(const struct tmv_pair *pair, uint32_t channel, float *correlation)
{
    uint64_t bits = 0;
    const uint32_t number = tmv_pair_correlation(pair->state, TMV_PAIR_WORDS, channel, &bits, 1);
    return tmvt_float_of(number, bits, correlation);
}

TMV_CALL tmvt_pair_region(const struct tmv_pair *pair, uint32_t channel, struct tmv_region *region)
{
    uint64_t values[2] = {0, 0};
    const uint32_t number = tmv_pair_region(pair->state, TMV_PAIR_WORDS, channel, values, 2);
    return tmvt_region_of(number, values, region);
}

TMV_CALL tmvt_pair_beyond_ceiling(const struct tmv_pair *pair, uint32_t channel, bool *beyond)
{
    return tmvt_flag_of(tmv_pair_beyond_ceiling(pair->state, TMV_PAIR_WORDS, channel), beyond);
}

TMV_CALL tmvt_pair_finished(const struct tmv_pair *pair, uint32_t channel, bool *finished)
{
    return tmvt_flag_of(tmv_pair_finished(pair->state, TMV_PAIR_WORDS, channel), finished);
}

TMV_CALL tmvt_pair_exhausted(const struct tmv_pair *pair, uint32_t channel, bool *exhausted)
{
    return tmvt_flag_of(tmv_pair_exhausted(pair->state, TMV_PAIR_WORDS, channel), exhausted);
}

TMV_CALL tmvt_pair_bin_samples(const struct tmv_pair *pair, uint64_t *samples)
{
    return tmvt_refusal_of(tmv_pair_bin_samples(pair->state, TMV_PAIR_WORDS, samples, 1));
}

TMV_CALL tmvt_pair_ceiling_samples(const struct tmv_pair *pair, uint64_t *samples)
{
    return tmvt_refusal_of(tmv_pair_ceiling_samples(pair->state, TMV_PAIR_WORDS, samples, 1));
}

/* ---- the fine stage */

struct tmv_fine {
    uint64_t state[TMV_FINE_WORDS];
    float *near_frame;
    size_t near_len;
    float *retained;
    size_t retained_len;
};

#define TMV_FINE_KEPT(span)                           \
    struct {                                          \
        float near_frame[TMV_FINE_FRAME_LEN(span)];   \
        float retained[TMV_FINE_FRAME_LEN(span)];     \
    }
#define TMV_FINE_OVER(kept) {{0}, (kept).near_frame, TMV_COUNT((kept).near_frame), (kept).retained, TMV_COUNT((kept).retained)}

/* Takes TMV_FINE_KEPT_BYTES of memory or more, aligned for a float. Refuses as tmvt_scan_lend does. */
TMV_CALL tmvt_fine_lend(struct tmv_fine *fine, uint32_t span, void *kept, size_t kept_bytes)
{
    const size_t frame = (size_t)tmv_fine_frame_len(span);
    if (frame == 0)
        return TMVT_OUTSIDE_TABLE;
    if (kept_bytes < TMV_FINE_KEPT_BYTES(span) || (uintptr_t)kept % sizeof(float) != 0)
        return TMVT_WRONG_LENGTH;
    memset(fine->state, 0, sizeof fine->state);
    fine->near_frame = (float *)kept;
    fine->near_len = frame;
    fine->retained = fine->near_frame + frame;
    fine->retained_len = frame;
    return TMVT_ACCEPTED;
}

/* What the peak rule made of a correlation. */
struct tmv_candidate {
    bool found;
    uint64_t first; /* the peak's first position in the correlation, whether or not there is a candidate */
    uint64_t last;  /* its last position, which differs only in a tie */
    uint64_t delay; /* in samples; 0 without a candidate */
    double ratio;   /* of the peak to the mean; 0 without a candidate */
};
#define TMV_FINE_PEAK_VALUES 4

struct tmv_position {
    bool scanned; /* whether there has been a scan */
    uint64_t first;
    uint64_t last;
};

struct tmv_range {
    uint64_t first, last;
};

TMV_CALL tmvt_fine_new(struct tmv_fine *fine, uint32_t span)
{
    return tmvt_refusal_of(tmv_fine_new(fine->state, TMV_FINE_WORDS, span));
}

TMV_CALL tmvt_fine_restart(struct tmv_fine *fine)
{
    return tmvt_refusal_of(tmv_fine_restart(fine->state, TMV_FINE_WORDS));
}

TMV_CALL tmvt_fine_relocate(struct tmv_fine *fine, uint64_t origin)
{
    return tmvt_refusal_of(tmv_fine_relocate(fine->state, TMV_FINE_WORDS, origin));
}

TMV_CALL tmvt_fine_reset(struct tmv_fine *fine)
{
    return tmvt_refusal_of(tmv_fine_reset(fine->state, TMV_FINE_WORDS));
}

TMV_CALL tmvt_fine_push_near(struct tmv_fine *fine, float sample, enum tmv_fine_taking *taking)
{
    const uint32_t number = tmv_fine_push_near(fine->state, TMV_FINE_WORDS, fine->near_frame, fine->near_len, sample);
    if (tmvt_answered(number))
        *taking = (enum tmv_fine_taking)number;
    return tmvt_refusal_of(number);
}

/* Takes near samples up to the one that completes the frame; `taken` is how many. */
TMV_CALL tmvt_fine_push_near_run(struct tmv_fine *fine, const float *samples, size_t count, enum tmv_fine_taking *taking, size_t *taken)
{
    uint64_t values[1] = {0};
    const uint32_t number = tmv_fine_push_near_run(fine->state, TMV_FINE_WORDS, fine->near_frame, fine->near_len, samples, count, values, 1);
    if (tmvt_answered(number)) {
        *taking = (enum tmv_fine_taking)number;
        *taken = (size_t)values[0];
    }
    return tmvt_refusal_of(number);
}

TMV_CALL tmvt_fine_gate(struct tmv_fine *fine, const float *far_window, size_t far_len, uint64_t missing_head, uint64_t missing_tail, enum tmv_gate *gate)
{
    const uint32_t number = tmv_fine_gate(fine->state, TMV_FINE_WORDS, fine->near_frame, fine->near_len, fine->retained, fine->retained_len, far_window, far_len, missing_head, missing_tail);
    if (tmvt_answered(number))
        *gate = (enum tmv_gate)number;
    return tmvt_refusal_of(number);
}

TMV_CALL tmvt_fine_rescan(const struct tmv_fine *fine, const float *far_window, size_t far_len, uint64_t missing_head, uint64_t missing_tail, enum tmv_rescan *rescan)
{
    const uint32_t number = tmv_fine_rescan(fine->state, TMV_FINE_WORDS, fine->retained, fine->retained_len, far_window, far_len, missing_head, missing_tail);
    if (tmvt_answered(number))
        *rescan = (enum tmv_rescan)number;
    return tmvt_refusal_of(number);
}

TMV_CALL tmvt_fine_peak(struct tmv_fine *fine, const float *correlation, size_t correlation_len, struct tmv_candidate *candidate)
{
    uint64_t values[TMV_FINE_PEAK_VALUES] = {0};
    const uint32_t number = tmv_fine_peak(fine->state, TMV_FINE_WORDS, correlation, correlation_len, values, TMV_FINE_PEAK_VALUES);
    if (tmvt_answered(number)) {
        candidate->found = number == TMV_PEAK_CANDIDATE;
        candidate->delay = values[0];
        candidate->first = values[1];
        candidate->ratio = tmvt_double(values[2]);
        candidate->last = values[3];
    }
    return tmvt_refusal_of(number);
}

TMV_CALL tmvt_fine_frame_len(const struct tmv_fine *fine, uint64_t *samples)
{
    return tmvt_refusal_of(tmv_fine_state_frame_len(fine->state, TMV_FINE_WORDS, samples, 1));
}

TMV_CALL tmvt_fine_window_len(const struct tmv_fine *fine, uint64_t *samples)
{
    return tmvt_refusal_of(tmv_fine_state_window_len(fine->state, TMV_FINE_WORDS, samples, 1));
}

TMV_CALL tmvt_fine_max_delay(const struct tmv_fine *fine, uint64_t *samples)
{
    return tmvt_refusal_of(tmv_fine_max_delay(fine->state, TMV_FINE_WORDS, samples, 1));
}

TMV_CALL tmvt_fine_window_back_off(const struct tmv_fine *fine, uint64_t *samples)
{
    return tmvt_refusal_of(tmv_fine_window_back_off(fine->state, TMV_FINE_WORDS, samples, 1));
}

TMV_CALL tmvt_fine_search_range(const struct tmv_fine *fine, struct tmv_range *range)
{
    uint64_t values[2] = {0, 0};
    const uint32_t number = tmv_fine_search_range(fine->state, TMV_FINE_WORDS, values, 2);
    if (tmvt_answered(number)) {
        range->first = values[0];
        range->last = values[1];
    }
    return tmvt_refusal_of(number);
}

TMV_CALL tmvt_fine_frames(const struct tmv_fine *fine, uint64_t *frames)
{
    return tmvt_refusal_of(tmv_fine_frames(fine->state, TMV_FINE_WORDS, frames, 1));
}

TMV_CALL tmvt_fine_skipped(const struct tmv_fine *fine, uint64_t *frames)
{
    return tmvt_refusal_of(tmv_fine_skipped(fine->state, TMV_FINE_WORDS, frames, 1));
}

TMV_CALL tmvt_fine_last_scan_ratio(const struct tmv_fine *fine, double *ratio)
{
    uint64_t bits = 0;
    const uint32_t number = tmv_fine_last_scan_ratio(fine->state, TMV_FINE_WORDS, &bits, 1);
    return tmvt_double_of(number, bits, ratio);
}

TMV_CALL tmvt_fine_last_scan_peak_at(const struct tmv_fine *fine, struct tmv_position *position)
{
    uint64_t values[2] = {0};
    const uint32_t number = tmv_fine_last_scan_peak_at(fine->state, TMV_FINE_WORDS, values, TMV_COUNT(values));
    if (tmvt_answered(number)) {
        position->scanned = number == TMV_POSITION_AT;
        position->first = values[0];
        position->last = values[1];
    }
    return tmvt_refusal_of(number);
}

TMV_CALL tmvt_fine_last_scan_origin(const struct tmv_fine *fine, uint64_t *origin)
{
    return tmvt_refusal_of(tmv_fine_last_scan_origin(fine->state, TMV_FINE_WORDS, origin, 1));
}

TMV_CALL tmvt_fine_scans(const struct tmv_fine *fine, uint64_t *scans)
{
    return tmvt_refusal_of(tmv_fine_scans(fine->state, TMV_FINE_WORDS, scans, 1));
}

/* ---- the tracker */

struct tmv_tracker {
    uint64_t state[TMV_TRACKER_WORDS];
};

struct tmv_verdict {
    enum tmv_verdict_kind kind;
    uint64_t alignment; /* with TMVT_VERDICT_MOVE */
};

TMV_CALL tmvt_tracker_new(struct tmv_tracker *tracker, uint32_t rate)
{
    return tmvt_refusal_of(tmv_tracker_new(tracker->state, TMV_TRACKER_WORDS, rate));
}

TMV_CALL tmvt_tracker_on_cycle(struct tmv_tracker *tracker, uint64_t alignment, enum tmv_cycle kind, uint64_t delay, struct tmv_verdict *verdict)
{
    uint64_t value = 0;
    const uint32_t number = tmv_tracker_on_cycle(tracker->state, TMV_TRACKER_WORDS, alignment, (uint32_t)kind, delay, &value, 1);
    if (tmvt_answered(number)) {
        verdict->kind = (enum tmv_verdict_kind)number;
        verdict->alignment = value;
    }
    return tmvt_refusal_of(number);
}

TMV_CALL tmvt_tracker_on_discontinuity(struct tmv_tracker *tracker)
{
    return tmvt_refusal_of(tmv_tracker_on_discontinuity(tracker->state, TMV_TRACKER_WORDS));
}

TMV_CALL tmvt_tracker_jump_cycles(const struct tmv_tracker *tracker, uint64_t *cycles)
{
    return tmvt_refusal_of(tmv_tracker_jump_cycles(tracker->state, TMV_TRACKER_WORDS, cycles, 1));
}

TMV_CALL tmvt_tracker_longest_run(const struct tmv_tracker *tracker, uint64_t *cycles)
{
    return tmvt_refusal_of(tmv_tracker_longest_run(tracker->state, TMV_TRACKER_WORDS, cycles, 1));
}

TMV_CALL tmvt_tracker_suspect(const struct tmv_tracker *tracker, bool *suspect)
{
    return tmvt_flag_of(tmv_tracker_suspect(tracker->state, TMV_TRACKER_WORDS), suspect);
}

TMV_CALL tmvt_tracker_quiescent(const struct tmv_tracker *tracker, bool *quiescent)
{
    return tmvt_flag_of(tmv_tracker_quiescent(tracker->state, TMV_TRACKER_WORDS), quiescent);
}

/* ---- the far reference ring. Its samples are f32 patterns: tmvt_float_bits makes one. */

struct tmv_ring {
    uint64_t state[TMV_RING_WORDS];
    uint32_t *buf;
    size_t buf_len;
};

#define TMV_RING_OVER(buf) {{0}, (buf), TMV_COUNT(buf)}

struct tmv_kept {
    bool kept;
    float sample;
};

TMV_CALL tmvt_ring_new(struct tmv_ring *ring)
{
    return tmvt_refusal_of(tmv_ring_new(ring->state, TMV_RING_WORDS, ring->buf, ring->buf_len));
}

TMV_CALL tmvt_ring_push(struct tmv_ring *ring, const uint32_t *samples, size_t count)
{
    return tmvt_refusal_of(tmv_ring_push(ring->state, TMV_RING_WORDS, ring->buf, ring->buf_len, samples, count));
}

/* Appends floats; every NaN is stored as 0x7FC00000. */
TMV_CALL tmvt_ring_push_floats(struct tmv_ring *ring, const float *samples, size_t count)
{
    return tmvt_refusal_of(tmv_ring_push_floats(ring->state, TMV_RING_WORDS, ring->buf, ring->buf_len, samples, count));
}

TMV_CALL tmvt_ring_clear(struct tmv_ring *ring)
{
    return tmvt_refusal_of(tmv_ring_clear(ring->state, TMV_RING_WORDS, ring->buf, ring->buf_len));
}

TMV_CALL tmvt_ring_get(const struct tmv_ring *ring, uint64_t at, struct tmv_kept *kept)
{
    uint64_t place = 0;
    const uint32_t number = tmv_ring_get(ring->state, TMV_RING_WORDS, ring->buf, ring->buf_len, at, &place, 1);
    if (tmvt_answered(number)) {
        kept->kept = number == TMV_RING_KEPT;
        kept->sample = number == TMV_RING_KEPT ? tmvt_float(ring->buf[place]) : 0;
    }
    return tmvt_refusal_of(number);
}

/* How many samples of a window are missing: before its first kept one, and behind its last pushed one. */
struct tmv_missing {
    uint64_t head;
    uint64_t tail;
};

TMV_CALL tmvt_missing_of(uint32_t number, const uint64_t values[2], struct tmv_missing *missing)
{
    if (tmvt_answered(number)) {
        missing->head = values[0];
        missing->tail = values[1];
    }
    return tmvt_refusal_of(number);
}

/* Reads the window that begins `back` samples before index `at`, as patterns or as floats. */
TMV_CALL tmvt_ring_window(const struct tmv_ring *ring, uint64_t at, uint64_t back, uint32_t *window, size_t window_len, struct tmv_missing *missing)
{
    uint64_t values[2] = {0, 0};
    const uint32_t number = tmv_ring_window(ring->state, TMV_RING_WORDS, ring->buf, ring->buf_len, at, back, window, window_len, values, 2);
    return tmvt_missing_of(number, values, missing);
}

TMV_CALL tmvt_ring_window_floats(const struct tmv_ring *ring, uint64_t at, uint64_t back, float *window, size_t window_len, struct tmv_missing *missing)
{
    uint64_t values[2] = {0, 0};
    const uint32_t number = tmv_ring_window_floats(ring->state, TMV_RING_WORDS, ring->buf, ring->buf_len, at, back, window, window_len, values, 2);
    return tmvt_missing_of(number, values, missing);
}

TMV_CALL tmvt_ring_next_abs(const struct tmv_ring *ring, uint64_t *index)
{
    return tmvt_refusal_of(tmv_ring_next_abs(ring->state, TMV_RING_WORDS, ring->buf, ring->buf_len, index, 1));
}

TMV_CALL tmvt_ring_capacity(const struct tmv_ring *ring, uint64_t *samples)
{
    return tmvt_refusal_of(tmv_ring_capacity(ring->state, TMV_RING_WORDS, ring->buf, ring->buf_len, samples, 1));
}

TMV_CALL tmvt_ring_dropped(const struct tmv_ring *ring, uint64_t *samples)
{
    return tmvt_refusal_of(tmv_ring_dropped(ring->state, TMV_RING_WORDS, ring->buf, ring->buf_len, samples, 1));
}

#endif
