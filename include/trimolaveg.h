/*
 * Trimolaveg locates an echo. It offers the delay decisions of an echo canceller (far reference ring, coarse scan, fine gate and
 * peak rule, tracker) as functions that are proved to do what docs/ says, on every input.
 *
 * How to call
 *   - Nothing here allocates, blocks, keeps a pointer or has a state of its own. The caller lends all memory, call by call.
 *   - A list is a pointer and the number of its elements. It may hold any numbers. The pointer must be valid for that many
 *     elements, and must not be NULL even if there are none. Two lists of one call must not overlap unless both are only read.
 *   - A state is a list of 64-bit words, which the caller keeps between calls. Its layout is below. Each call checks for itself
 *     whether the words are a valid state. Floats are stored as IEEE 754 bit patterns, an f32 in the low half of its word. Flags are 0 and 1.
 *   - Every call returns a number. Below 16 it is a refusal (TMV_OUTSIDE_TABLE to TMV_NO_SUCH_CHANNEL), and the call has written
 *     nothing that was lent to it: neither state nor buffers nor values. From 16 on it says which answer it is.
 *   - An answer that has values writes them into `values`. The length of `values` must be what the call asks for, whichever answer comes. An answer
 *     without values leaves `values` unchanged.
 *
 * Refusals are judged in this order: 11, 1, 2, 3, then 9, then 6 or 7, then 5, then 4. A call that makes a state judges the rate, ceiling or span that it is given (1), then
 * the length of the state (2). Any other call has to read these settings from the state, so it judges the length of the state first (2), then the state's own rate,
 * ceiling or span (1), then the length of the values (2), then the buffers (2) and the rest.
 * Each call below says which refusals it can give and why. Every call on a state whose own rate, ceiling or span is outside the table also returns TMV_OUTSIDE_TABLE,
 * and every call on a state that breaks one of its rules returns TMV_BROKEN_STATE.
 *
 * A whole example: a scan at 48,000 Hz with a ceiling of 500 ms. It pushes far samples as they are played and near samples as they are
 * captured, each near sample with the index of the far sample that was played at that moment. It scores a full frame at once.
 *
 *   uint64_t state[TMV_SCAN_WORDS] = {0}, values[3], taken;
 *   size_t envelope_len = tmv_scan_envelope_len(48000, 500), levels_len = tmv_scan_levels_len(48000, 500);
 *   size_t window_len = tmv_scan_window_len(48000, 500), prefix_len = tmv_scan_prefix_len(48000, 500);
 *   size_t lags_len = tmv_scan_lags_len(48000, 500);
 *   float *envelope = calloc(envelope_len, sizeof *envelope), *levels = calloc(levels_len, sizeof *levels);
 *   float *window = calloc(window_len, sizeof *window);
 *   double *prefix = calloc(prefix_len, sizeof *prefix), *squares = calloc(prefix_len, sizeof *squares);
 *   double *scores = calloc(lags_len, sizeof *scores), *lag_sums = calloc(lags_len, sizeof *lag_sums);
 *
 *   tmv_scan_new(state, TMV_SCAN_WORDS, envelope, envelope_len, lag_sums, lags_len, 48000, 500);
 *   for (;;) {
 *       ... 480 samples were played and 480 captured; the first of these belongs to far index `index` ...
 *       tmv_scan_push_far(state, TMV_SCAN_WORDS, envelope, envelope_len, played, 480);
 *       for (size_t i = 0; i < 480; i += taken, index += taken) {
 *           uint32_t answer = tmv_scan_push_near_run(state, TMV_SCAN_WORDS, levels, levels_len, captured + i, 480 - i, index, &taken, 1);
 *           if (answer < TMV_ANSWERED)
 *               break; ... refused, and none of these samples was taken ...
 *           if (answer != TMV_TAKING_FULL)
 *               continue;
 *           if (tmv_scan_observe(state, TMV_SCAN_WORDS, envelope, envelope_len, levels, levels_len, window, window_len, prefix, prefix_len,
 *                                squares, prefix_len, scores, lags_len, lag_sums, lags_len, values, 3) == TMV_FRAME_REGION)
 *               ... the echo arrives values[0] samples after the sound was played ...
 *       }
 *   }
 *
 * examples/c has this as a program. It uses trimolaveg_typed.h, which puts state and lists into a struct and gives each family of answers a type. trimolaveg_sizes.h has
 * the lengths as constants.
 */
#ifndef TRIMOLAVEG_H
#define TRIMOLAVEG_H

#include <stddef.h>
#include <stdint.h>

#ifdef __cplusplus
extern "C" {
#endif

/* ---- version. tmv_version returns the TMV_VERSION that the archive was made with: compare the two once, at the start. */

#define TMV_VERSION_MAJOR 0
#define TMV_VERSION_MINOR 10
#define TMV_VERSION_PATCH 0
#define TMV_VERSION (TMV_VERSION_MAJOR * 10000 + TMV_VERSION_MINOR * 100 + TMV_VERSION_PATCH)

uint32_t tmv_version(void);

/* ---- refusals */

#define TMV_OUTSIDE_TABLE 1 /* rate, ceiling or span outside the table: 8,000 to 192,000 Hz, 1 to 4,000 ms, 1 to 32,768 samples; of a panel 8,000 or 16,000 Hz, 8 to 320 ms */
#define TMV_WRONG_LENGTH 2  /* a list does not have the length named here */
#define TMV_BROKEN_STATE 3  /* the words break a rule of their state */
#define TMV_NOT_FINITE 4    /* a sample, correlation, level or lag sum that would be read is NaN or infinite */
#define TMV_TOO_LARGE 5     /* an index, delay, alignment or origin of 2^62 or more, or a push that would pass 2^62 samples */
#define TMV_FRAME_WAITS 6   /* a near sample is offered while a full frame waits */
#define TMV_NO_FULL_FRAME 7 /* a frame is to be scored and none is full */
#define TMV_INCONSISTENT_RECORD 9 /* the tracker's record is inconsistent: its largest run of contradicting cycles is below the current one */
#define TMV_NO_SUCH_CHANNEL 11 /* the channel number of a pair is not 0 or 1 */

/* ---- answers. A number of 16 or more is not a refusal. */

#define TMV_ANSWERED 16
#define TMV_DONE 16 /* from a call that changes a state, and from a report that always has its value */

#define TMV_NO 16 /* from a report that is a flag */
#define TMV_YES 17

/* from tmv_scan_push_near, and all but TMV_TAKING_DROPPED from tmv_scan_push_near_run; calls of a pair or a panel give the answers of the scan's calls */
#define TMV_TAKING_IGNORED 16 /* scan::Taking::Ignored: the scan is finished */
#define TMV_TAKING_DROPPED 17 /* scan::Taking::Dropped: no frame is under way, and none begins at this index */
#define TMV_TAKING_TAKEN 18   /* scan::Taking::Taken */
#define TMV_TAKING_FULL 19    /* scan::Taking::Full: taken as the frame's last sample; call tmv_scan_observe next */

/* from tmv_scan_observe */
#define TMV_FRAME_UNCOVERED 16 /* scan::Frame::Uncovered: the far history does not reach back over the window */
#define TMV_FRAME_AHEAD 17     /* scan::Frame::Ahead: more than a quarter of a frame is not yet written on the far side */
#define TMV_FRAME_QUIET 18     /* scan::Frame::Quiet: the far side is too quiet */
#define TMV_FRAME_FLAT 19      /* scan::Frame::Flat: the near side does not vary */
#define TMV_FRAME_BANKED 20    /* scan::Frame::Banked: the frame counts, but fewer than four are summed; values[0] is its peak, an f32 pattern */
#define TMV_FRAME_WEAK 21      /* scan::Frame::Weak: the fourth frame; the averaged peak is below 0.25 */
#define TMV_FRAME_CEILING 22   /* scan::Frame::Ceiling: the fourth frame; the peak is at the ceiling */
#define TMV_FRAME_CROWDED 23   /* scan::Frame::Crowded: the fourth frame; another peak is too high */
#define TMV_FRAME_REGION 24    /* scan::Frame::Region: the fourth frame; values[0] is the delay in samples, values[1] the correlation, an f64 pattern */

/* from tmv_scan_region */
#define TMV_REGION_NOTHING 16 /* scan::Found::Nothing */
#define TMV_REGION_AT 17      /* scan::Found::At: values[0] is the delay in samples, values[1] the correlation, an f64 pattern */

/* from tmv_ring_get */
#define TMV_RING_NOT_KEPT 16 /* ring::Kept::NotKept: overwritten, or not pushed yet */
#define TMV_RING_KEPT 17     /* ring::Kept::At: values[0] is the sample's position in the buffer */

/* from tmv_tracker_on_cycle */
#define TMV_VERDICT_HOLD 16            /* tracker::Verdict::Hold: keep the alignment */
#define TMV_VERDICT_MOVE 17            /* tracker::Verdict::Move: move to the alignment in values[0] */
#define TMV_VERDICT_REACQUIRE_EDGE 18  /* tracker::Trigger::Edge: search again; candidates stayed at an edge */
#define TMV_VERDICT_REACQUIRE_LOST 19  /* tracker::Trigger::Lost: search again; there was no confident cycle for too long */
#define TMV_VERDICT_REACQUIRE_JUMP 20  /* tracker::Trigger::Jump: search again; candidates contradict each other */
#define TMV_VERDICT_REACQUIRE_SEAM 21  /* tracker::Trigger::Seam: search again; the lock was not confirmed after a discontinuity */

/* from tmv_fine_push_near and tmv_fine_push_near_run */
#define TMV_FINE_TAKEN 16 /* fine_gate::Taking::Taken */
#define TMV_FINE_FULL 17  /* fine_gate::Taking::Full: taken as the frame's last sample; call tmv_fine_gate next */

/* from tmv_fine_gate */
#define TMV_GATE_SKIPPED 16 /* fine_gate::GateAnswer::Skipped: the far window is missing its head, or too much of its tail */
#define TMV_GATE_SILENT 17  /* fine_gate::GateAnswer::Silent: one side has too little energy */
#define TMV_GATE_FIRST 18   /* fine_gate::GateAnswer::First: taken as the first frame at this origin; there is no peak to ask for yet */
#define TMV_GATE_LATER 19   /* fine_gate::GateAnswer::Later: taken; correlate, then call tmv_fine_peak */

/* from tmv_fine_rescan */
#define TMV_RESCAN_NOTHING_RETAINED 16 /* fine_gate::RescanAnswer::NothingRetained */
#define TMV_RESCAN_SKIPPED 17          /* fine_gate::RescanAnswer::Skipped */
#define TMV_RESCAN_SILENT 18           /* fine_gate::RescanAnswer::Silent */
#define TMV_RESCAN_TAKEN 19            /* fine_gate::RescanAnswer::Taken: correlate, then call tmv_fine_peak */

/* from tmv_fine_peak */
#define TMV_PEAK_NO_CANDIDATE 16 /* fine_peak::PeakAnswer::NoCandidate: values[1] is the peak's first position, values[3] its last; the other values are left unchanged */
#define TMV_PEAK_CANDIDATE 17    /* fine_peak::PeakAnswer::Candidate: values are the delay in samples, the peak's first position, its ratio to the mean (an f64 pattern), and its last position */

/* from tmv_fine_last_scan_peak_at */
#define TMV_POSITION_NOTHING 16 /* fine_words::tell_place::None: there has been no scan yet */
#define TMV_POSITION_AT 17      /* fine_words::tell_place::Some: the first position is in values[0], the last in values[1]; they differ if it was a tie */

/* ---- kinds of cycle, for tmv_tracker_on_cycle */

#define TMV_CYCLE_UNCONFIDENT 0
#define TMV_CYCLE_INTERIOR 1
#define TMV_CYCLE_EDGE 2

/* ---- words of each state */

#define TMV_RING_WORDS 1
#define TMV_SCAN_WORDS 25
#define TMV_PAIR_WORDS 38
#define TMV_TRACKER_WORDS 15
#define TMV_FINE_WORDS 14

/* ---- floats, as bit patterns. These are never refused: each returns its value, but for tmv_square_roots, which writes to the list that it is lent. */

/* Narrows an f64 to f32, rounding to nearest, ties to even. A NaN gives 0x7FC00000. */
uint32_t tmv_narrow(uint64_t bits);

/* Takes the square root of an f64, correctly rounded. The root of -0 is -0; that of a NaN or of a number below 0 is 0x7FF8000000000000. */
uint64_t tmv_square_root(uint64_t bits);

/* Replaces each f64 of a list by its square root. A root begins with a guess from a table, which every call makes anew, so a root in a long list takes a
 * quarter of the time that tmv_square_root takes. */
void tmv_square_roots(uint64_t *list, size_t list_len);

/* Returns 1 if the f64 is neither a NaN nor infinite, else 0; the second does the same for an f32. */
uint32_t tmv_is_finite(uint64_t bits);
uint32_t tmv_is_finite32(uint32_t bits);

/* Returns the absolute value of an f64: the pattern with its sign bit clear, for a NaN too. */
uint64_t tmv_magnitude(uint64_t bits);

/* ---- the far reference ring. Samples are f32 bit patterns of any kind, NaNs too.
 *
 * Words: 0 samples accepted in all, at most 2^62 (a rule). The buffer is lent with every call; its length, 1 or more, is the capacity.
 * Every call refuses with 2 if state or values do not have 1 word (2 values for a window) or the buffer has length 0, and with 3 if more than 2^62 samples were accepted.
 * Making a ring does not look at what the words held before. The same goes for the other states. */

uint64_t tmv_ring_words(void);

/* Makes a ring over buf, which it does not write. */
uint32_t tmv_ring_new(uint64_t *state, size_t state_len, const uint32_t *buf, size_t buf_len);

/* Appends samples, overwriting the oldest ones kept. Also refuses with 5 if the count would pass 2^62; then it stores none of them. */
uint32_t tmv_ring_push(uint64_t *state, size_t state_len, uint32_t *buf, size_t buf_len, const uint32_t *samples, size_t samples_len);

/* Does the same with floats, each stored as its pattern. Every NaN is stored as 0x7FC00000; tmv_ring_push keeps the bits of a NaN. */
uint32_t tmv_ring_push_floats(uint64_t *state, size_t state_len, uint32_t *buf, size_t buf_len, const float *samples, size_t samples_len);

/* Returns the ring to the state in which it was made. */
uint32_t tmv_ring_clear(uint64_t *state, size_t state_len, const uint32_t *buf, size_t buf_len);

/* Tells where in buf the sample with absolute index `at` is, if it is kept. Refuses no index. */
uint32_t tmv_ring_get(const uint64_t *state, size_t state_len, const uint32_t *buf, size_t buf_len, uint64_t at, uint64_t *values, size_t values_len);

/* Reads the whole window that begins `back` samples before absolute index `at`: its place i is index at + i - back, with 0 where no sample is kept. values: 2 words, how many samples are
 * missing at its head (before the stream's first, or overwritten) and at its tail (not pushed yet). Refuses no index; the window may have any length. A fine stage's far window is the one with
 * `at` the index of the near frame's first sample and `back` what tmv_fine_window_back_off reports. */
uint32_t tmv_ring_window(const uint64_t *state, size_t state_len, const uint32_t *buf, size_t buf_len, uint64_t at, uint64_t back, uint32_t *window, size_t window_len, uint64_t *values, size_t values_len);

/* Reads the same window as floats. A NaN's pattern is read as a NaN, whose payload is not said. */
uint32_t tmv_ring_window_floats(const uint64_t *state, size_t state_len, const uint32_t *buf, size_t buf_len, uint64_t at, uint64_t back, float *window, size_t window_len, uint64_t *values, size_t values_len);

/* Report the absolute index of the next sample; the capacity; and how many samples were overwritten since the ring was made or last cleared. */
uint32_t tmv_ring_next_abs(const uint64_t *state, size_t state_len, const uint32_t *buf, size_t buf_len, uint64_t *values, size_t values_len);
uint32_t tmv_ring_capacity(const uint64_t *state, size_t state_len, const uint32_t *buf, size_t buf_len, uint64_t *values, size_t values_len);
uint32_t tmv_ring_dropped(const uint64_t *state, size_t state_len, const uint32_t *buf, size_t buf_len, uint64_t *values, size_t values_len);

/* ---- the coarse scan: locates the echo to about 1 ms, over the whole range up to the ceiling.
 *
 * Words (D is the decimation):
 *    0 sample rate               1 ceiling in ms
 *    2 decimation D              3 bin rate       4 span in bins    5 frame in bins    6 ceiling guard    7 peak guard
 *    8 far blocks written        9 running sum of the far block under way (f64)    10 samples in it    11 far samples accepted
 *   12 bins in the near frame   13 running sum of the near bin under way (f64)     14 samples in it    15 the frame's first bin
 *   16 frames banked (0 to 3)   17 frames counted                                  18 the last frame's peak (f32)
 *   19 flag: there is a region  20 its delay in samples                            21 its correlation (f64)
 *   22 flag: a peak was at the ceiling                                             23 flag: the scan has given up
 *   24 the index of the last near sample that was taken
 * Rules: 2 to 7 follow from 0 and 1; 8 and 10 are quotient and remainder of 11 by D; 11 is at most 2^62; 9 and 13 are finite; 14 is below D, and 0 in a full
 * frame; 12 is at most the frame; 15 times D is below 2^62; 16 is below 4; 16 to 18 are below 2^32; flags are 0 or 1; if 19 or 23 is 1, 12 and 14 are 0;
 * if 12 or 14 is not 0, 24 is 15 x D plus the samples taken, 12 x D + 14, less one.
 * Without a region, calls leave 20 and 21 as they are.
 *
 * Every call refuses with 2 if the state does not have 25 words (tmv_scan_new judges this after 1), with 1 if rate or ceiling is outside the table, with 2 if the values do
 * not have the length that the call asks for or a buffer does not have the length that rate and ceiling give (below), and with 3 if a rule is broken. */

uint64_t tmv_scan_words(void);

/* Return how long each buffer must be for a rate and ceiling, and 0 outside the table. `lags` is the length of scores and of lag sums, `prefix` that of both prefix buffers. */
uint64_t tmv_scan_envelope_len(uint32_t rate, uint32_t ceiling);
uint64_t tmv_scan_levels_len(uint32_t rate, uint32_t ceiling);
uint64_t tmv_scan_window_len(uint32_t rate, uint32_t ceiling);
uint64_t tmv_scan_prefix_len(uint32_t rate, uint32_t ceiling);
uint64_t tmv_scan_lags_len(uint32_t rate, uint32_t ceiling);

/* Makes a new scan. Zeroes the envelope and the lag sums. */
uint32_t tmv_scan_new(uint64_t *state, size_t state_len, float *envelope, size_t envelope_len, double *lag_sums, size_t lag_sums_len, uint32_t rate, uint32_t ceiling);

/* Returns the scan to the state in which it was made. Zeroes the envelope and the lag sums. */
uint32_t tmv_scan_reset(uint64_t *state, size_t state_len, float *envelope, size_t envelope_len, double *lag_sums, size_t lag_sums_len);

/* Begins a new search on the same far history: clears near frame, sums, counts, region and flags. */
uint32_t tmv_scan_rearm(uint64_t *state, size_t state_len, double *lag_sums, size_t lag_sums_len);

/* Drops the near frame under way and the banked frames. Call it where the near stream was cut. */
uint32_t tmv_scan_discard_near(uint64_t *state, size_t state_len, double *lag_sums, size_t lag_sums_len);

/* Takes any number of far samples in the order in which they were played. Also refuses with 5 if there would be more than 2^62 in all, and with 4 if one of them is not finite; then it takes none. */
uint32_t tmv_scan_push_far(uint64_t *state, size_t state_len, float *envelope, size_t envelope_len, const float *samples, size_t samples_len);

/* Takes one near sample with its far index. Also refuses with 6 if a full frame waits, with 5 if the index is 2^62 or more, and with 4 if the sample is not finite and would
 * not be dropped. A finished scan ignores any sample with any index. While a frame is under way, an index that is not the last one plus one (a hole) drops that frame, and the
 * sample is dropped or begins another; banked frames stay. A refused sample leaves the frame under way. */
uint32_t tmv_scan_push_near(uint64_t *state, size_t state_len, float *levels, size_t levels_len, float sample, uint64_t index);

/* Takes a run of near samples, any number of them; samples[i] has the far index first + i. The run ends after the sample that completes the frame, or with the last one, and does what as many calls of
 * tmv_scan_push_near do. values: 1 word, how many samples were taken, dropped ones among them. It answers TMV_TAKING_TAKEN, TMV_TAKING_FULL, or TMV_TAKING_IGNORED from a finished scan, which takes all
 * of them, whatever they are. Also refuses with 6 if a full frame waits, with 5 if the last index that would be taken is 2^62 or more, and with 4 if a sample that would go into the frame is not finite.
 * Then none is taken, and the state is unchanged. A run of none answers TMV_TAKING_TAKEN, even while a full frame waits. */
uint32_t tmv_scan_push_near_run(uint64_t *state, size_t state_len, float *levels, size_t levels_len, const float *samples, size_t samples_len, uint64_t first, uint64_t *values, size_t values_len);

/* Scores the full near frame and consumes it. values: 3 words. Every answer that is not a refusal writes values[2], how many products its lag sums took: 0 up to
 * TMV_FRAME_FLAT, at most TMV_SCAN_MOST_PRODUCTS(rate, ceiling) of trimolaveg_sizes.h. Also refuses with 7 if no frame is full, and with 4 if a near level, a written bin of the window or a lag
 * sum is not finite (not judged if the frame is uncovered or ahead). Window, prefixes and scores need not be kept between calls. */
uint32_t tmv_scan_observe(uint64_t *state, size_t state_len, const float *envelope, size_t envelope_len, const float *levels, size_t levels_len, float *window, size_t window_len, double *prefix, size_t prefix_len, double *squares, size_t squares_len, double *scores, size_t scores_len, double *lag_sums, size_t lag_sums_len, uint64_t *values, size_t values_len);

/* Reports. values: 1 word each, 2 for the region. The correlation is an f32 pattern: the region's if there is one, else the last frame's peak. A NaN that a caller put into
 * word 21 is reported bit for bit with the region, and narrowed to 0x7FC00000 as the correlation. A NaN in word 18 is reported bit for bit if there is no region. */
uint32_t tmv_scan_bin_samples(const uint64_t *state, size_t state_len, uint64_t *values, size_t values_len);
uint32_t tmv_scan_ceiling_samples(const uint64_t *state, size_t state_len, uint64_t *values, size_t values_len);
uint32_t tmv_scan_frames(const uint64_t *state, size_t state_len, uint64_t *values, size_t values_len);
uint32_t tmv_scan_correlation(const uint64_t *state, size_t state_len, uint64_t *values, size_t values_len);
uint32_t tmv_scan_region(const uint64_t *state, size_t state_len, uint64_t *values, size_t values_len);

/* Tell whether a peak was at the ceiling; whether the scan has a region or has given up; and whether it has given up. TMV_NO or TMV_YES. */
uint32_t tmv_scan_beyond_ceiling(const uint64_t *state, size_t state_len);
uint32_t tmv_scan_finished(const uint64_t *state, size_t state_len);
uint32_t tmv_scan_exhausted(const uint64_t *state, size_t state_len);

/* ---- the panel: a narrow profile of the coarse scan, which takes at most TMV_PANEL_BYTES_MOST bytes, all in all, of trimolaveg_sizes.h: below 24 KiB. Rates are 8,000 and 16,000 Hz, ceilings 8 to 320 ms, and the
 * envelope keeps 512 bins more than a window, where a scan's keeps 4,000.
 *
 * State, rules, answers and refusals are those of the tmv_scan_ calls of the same name, and so are the lists and their lengths, but for the envelope's. Where a scan's call refuses with 1 for a rate or ceiling
 * outside the table, a panel's also does so for one that the profile does not allow, reports included. The state does not say who made it: a panel's call takes a scan's state, if the profile allows its settings.
 *
 * Fed the same calls from the making on, a panel answers as a scan does up to the first frame whose window holds a bin that the scan has kept and the panel has overwritten. At that frame the panel
 * answers TMV_FRAME_UNCOVERED. From there on until the next rearm or reset the two may differ. A frame is not such a frame if, when it is scored, the far
 * side has written at most 512 bins, half a second, past the frame's end. */

/* Returns how long the envelope must be, and 0 where the profile does not allow rate or ceiling. For the other lists ask tmv_scan_levels_len and the like. */
uint64_t tmv_panel_envelope_len(uint32_t rate, uint32_t ceiling);

uint32_t tmv_panel_new(uint64_t *state, size_t state_len, float *envelope, size_t envelope_len, double *lag_sums, size_t lag_sums_len, uint32_t rate, uint32_t ceiling);
uint32_t tmv_panel_reset(uint64_t *state, size_t state_len, float *envelope, size_t envelope_len, double *lag_sums, size_t lag_sums_len);
uint32_t tmv_panel_rearm(uint64_t *state, size_t state_len, double *lag_sums, size_t lag_sums_len);
uint32_t tmv_panel_discard_near(uint64_t *state, size_t state_len, double *lag_sums, size_t lag_sums_len);
uint32_t tmv_panel_push_far(uint64_t *state, size_t state_len, float *envelope, size_t envelope_len, const float *samples, size_t samples_len);
uint32_t tmv_panel_push_near(uint64_t *state, size_t state_len, float *levels, size_t levels_len, float sample, uint64_t index);
uint32_t tmv_panel_push_near_run(uint64_t *state, size_t state_len, float *levels, size_t levels_len, const float *samples, size_t samples_len, uint64_t first, uint64_t *values, size_t values_len);
uint32_t tmv_panel_observe(uint64_t *state, size_t state_len, const float *envelope, size_t envelope_len, const float *levels, size_t levels_len, float *window, size_t window_len, double *prefix, size_t prefix_len, double *squares, size_t squares_len, double *scores, size_t scores_len, double *lag_sums, size_t lag_sums_len, uint64_t *values, size_t values_len);

uint32_t tmv_panel_bin_samples(const uint64_t *state, size_t state_len, uint64_t *values, size_t values_len);
uint32_t tmv_panel_ceiling_samples(const uint64_t *state, size_t state_len, uint64_t *values, size_t values_len);
uint32_t tmv_panel_frames(const uint64_t *state, size_t state_len, uint64_t *values, size_t values_len);
uint32_t tmv_panel_correlation(const uint64_t *state, size_t state_len, uint64_t *values, size_t values_len);
uint32_t tmv_panel_region(const uint64_t *state, size_t state_len, uint64_t *values, size_t values_len);
uint32_t tmv_panel_beyond_ceiling(const uint64_t *state, size_t state_len);
uint32_t tmv_panel_finished(const uint64_t *state, size_t state_len);
uint32_t tmv_panel_exhausted(const uint64_t *state, size_t state_len);

/* ---- the pair: two microphones, one loudspeaker. One far history serves two near scans, channel 0 and channel 1, each with its own near frame, sums and verdict.
 *
 * Words: 0 to 11 are the common part, settings and far side, as words 0 to 11 of a scan. 12 to 24 are channel 0's, as words 12 to 24 of a scan; 25 to 37 are channel 1's in the same order.
 * Rules: those of a scan, for the common part with each channel.
 *
 * Lists have the lengths that the tmv_scan_ functions return. The envelope is common. Levels and lag sums are kept for each channel. Window, prefixes and scores are scratch that both channels may be lent.
 *
 * A call that names a channel does on it what the tmv_scan_ call of the same name does on a scan: same answers, values and refusals. It neither reads nor writes the other channel's words, and is not lent its lists, so
 * nothing that one channel is fed, refused, rearmed or discarded shows in what the other answers.
 * Every call that names a channel refuses with 11 if the number is not 0 or 1, before it judges anything else, the length of the state included. Then it judges the common part and the channel's own words and
 * lists alone. tmv_pair_push_far and the two reports of the settings judge the common part alone. tmv_pair_reset judges all of it. Otherwise they refuse as a scan's calls do: with 2 if the state does not have
 * 38 words (tmv_pair_new judges this after 1), with 1, 2 and 3. */

uint64_t tmv_pair_words(void);

/* Makes a new pair. Zeroes the envelope and both lag sums. */
uint32_t tmv_pair_new(uint64_t *state, size_t state_len, float *envelope, size_t envelope_len, double *first_lag_sums, size_t first_lag_sums_len, double *second_lag_sums, size_t second_lag_sums_len, uint32_t rate, uint32_t ceiling);

/* Returns the pair to the state in which it was made, and so begins the numbering of both channels anew. Zeroes the envelope and both lag sums. There is no reset of one channel. */
uint32_t tmv_pair_reset(uint64_t *state, size_t state_len, float *envelope, size_t envelope_len, double *first_lag_sums, size_t first_lag_sums_len, double *second_lag_sums, size_t second_lag_sums_len);

/* Takes far samples for both channels, even if both are finished. Also refuses with 5 and 4, as tmv_scan_push_far does. */
uint32_t tmv_pair_push_far(uint64_t *state, size_t state_len, float *envelope, size_t envelope_len, const float *samples, size_t samples_len);

/* As the scan's calls of these names, on one channel, with that channel's levels and lag sums. values: 1 word for a run, 3 for tmv_pair_observe. */
uint32_t tmv_pair_push_near(uint64_t *state, size_t state_len, uint32_t channel, float *levels, size_t levels_len, float sample, uint64_t index);
uint32_t tmv_pair_push_near_run(uint64_t *state, size_t state_len, uint32_t channel, float *levels, size_t levels_len, const float *samples, size_t samples_len, uint64_t first, uint64_t *values, size_t values_len);
uint32_t tmv_pair_observe(uint64_t *state, size_t state_len, uint32_t channel, const float *envelope, size_t envelope_len, const float *levels, size_t levels_len, float *window, size_t window_len, double *prefix, size_t prefix_len, double *squares, size_t squares_len, double *scores, size_t scores_len, double *lag_sums, size_t lag_sums_len, uint64_t *values, size_t values_len);
uint32_t tmv_pair_rearm(uint64_t *state, size_t state_len, uint32_t channel, double *lag_sums, size_t lag_sums_len);
uint32_t tmv_pair_discard_near(uint64_t *state, size_t state_len, uint32_t channel, double *lag_sums, size_t lag_sums_len);

/* Reports of one channel. values: 1 word each, 2 for the region. */
uint32_t tmv_pair_frames(const uint64_t *state, size_t state_len, uint32_t channel, uint64_t *values, size_t values_len);
uint32_t tmv_pair_correlation(const uint64_t *state, size_t state_len, uint32_t channel, uint64_t *values, size_t values_len);
uint32_t tmv_pair_region(const uint64_t *state, size_t state_len, uint32_t channel, uint64_t *values, size_t values_len);
uint32_t tmv_pair_beyond_ceiling(const uint64_t *state, size_t state_len, uint32_t channel);
uint32_t tmv_pair_finished(const uint64_t *state, size_t state_len, uint32_t channel);
uint32_t tmv_pair_exhausted(const uint64_t *state, size_t state_len, uint32_t channel);

/* Reports of the settings, which both channels share. values: 1 word. */
uint32_t tmv_pair_bin_samples(const uint64_t *state, size_t state_len, uint64_t *values, size_t values_len);
uint32_t tmv_pair_ceiling_samples(const uint64_t *state, size_t state_len, uint64_t *values, size_t values_len);

/* ---- the fine stage: says which frames count, and what a correlation's peak means. The host runs the transform. docs/INTEGRATION.md says what to transform, and in which order to call.
 *
 * Words:
 *    0 span in samples    1 transform length    2 frame    3 search origin
 *    4 samples in the near frame    5 flag: a frame is retained    6 frames taken at this origin    7 frames skipped in all
 *    8 scans in all    9 the last scan's ratio (f64)    10 flag: there was a scan    11 its peak's first position    12 its origin
 *   13 its peak's last position
 * Rules: 1 and 2 follow from 0; 3 is below 2^62; 4 is at most the frame; 6 and 7 are below 2^32; flags are 0 or 1. Before the first scan, calls leave 11 and 13 as they are.
 *
 * Every call refuses with 2 if the state does not have 14 words (tmv_fine_new judges this after 1), with 1 if the span is outside the table, with 2 if the values do not have the
 * length that the call asks for or a buffer does not have the length that the span gives, and with 3 if a rule is broken. */

uint64_t tmv_fine_words(void);

/* Return the length of the near and of the retained frame; that of the far window; and the least length of the correlation. Each is 0 outside the table. */
uint64_t tmv_fine_frame_len(uint32_t span);
uint64_t tmv_fine_window_len(uint32_t span);
uint64_t tmv_fine_correlation_len(uint32_t span);

/* Returns the length of the host's transform; 0 outside the table. */
uint64_t tmv_fine_transform_len(uint32_t span);

/* Makes a new state that searches delays 0 to span. */
uint32_t tmv_fine_new(uint64_t *state, size_t state_len, uint32_t span);

/* Drops the near frame under way and sets the count of frames taken to 0. */
uint32_t tmv_fine_restart(uint64_t *state, size_t state_len);

/* Moves the search to another origin. Also refuses with 5 if the origin is 2^62 or more. */
uint32_t tmv_fine_relocate(uint64_t *state, size_t state_len, uint64_t origin);

/* Resets the state to what it was when it was made. */
uint32_t tmv_fine_reset(uint64_t *state, size_t state_len);

/* Takes one near sample. Also refuses with 6 if a full frame waits, and with 4 if the sample is not finite. */
uint32_t tmv_fine_push_near(uint64_t *state, size_t state_len, float *near_frame, size_t near_frame_len, float sample);

/* Takes consecutive near samples up to the one that completes the frame, as single calls would. values: 1 word, how many were taken. Also refuses with 6 if a full frame waits, and with 4 if one of
 * the samples that would be taken is not finite; it takes none of them then. A run of none is answered with TMV_FINE_TAKEN, 0 of them, even while a full frame waits. */
uint32_t tmv_fine_push_near_run(uint64_t *state, size_t state_len, float *near_frame, size_t near_frame_len, const float *samples, size_t samples_len, uint64_t *values, size_t values_len);

/* Says whether the full near frame counts, and consumes it. Copies a frame that counts to the retained frame. Also refuses with 7 if no frame is full, and with 4 if a near
 * or far sample is not finite (not judged if the frame is skipped). */
uint32_t tmv_fine_gate(uint64_t *state, size_t state_len, const float *near_frame, size_t near_frame_len, float *retained, size_t retained_len, const float *far_window, size_t far_window_len, uint64_t missing_head, uint64_t missing_tail);

/* Applies the same gate to the retained frame, and changes nothing. Also refuses with 4, as the gate does (not judged if nothing is retained). */
uint32_t tmv_fine_rescan(const uint64_t *state, size_t state_len, const float *retained, size_t retained_len, const float *far_window, size_t far_window_len, uint64_t missing_head, uint64_t missing_tail);

/* Searches entries 0 to span of a correlation, which may be longer, for a candidate. If heights are equal, the first gives the delay. values: 4 words. Also refuses with 4 if one of those entries is not finite. */
uint32_t tmv_fine_peak(uint64_t *state, size_t state_len, const float *correlation, size_t correlation_len, uint64_t *values, size_t values_len);

/* Reports. values: 1 word each, 2 for the search range (first and last delay) and for the last scan's peak (first and last position). The ratio is an f64 pattern. */
uint32_t tmv_fine_state_frame_len(const uint64_t *state, size_t state_len, uint64_t *values, size_t values_len);
uint32_t tmv_fine_state_window_len(const uint64_t *state, size_t state_len, uint64_t *values, size_t values_len);
uint32_t tmv_fine_max_delay(const uint64_t *state, size_t state_len, uint64_t *values, size_t values_len);
uint32_t tmv_fine_window_back_off(const uint64_t *state, size_t state_len, uint64_t *values, size_t values_len);
uint32_t tmv_fine_search_range(const uint64_t *state, size_t state_len, uint64_t *values, size_t values_len);
uint32_t tmv_fine_frames(const uint64_t *state, size_t state_len, uint64_t *values, size_t values_len);
uint32_t tmv_fine_skipped(const uint64_t *state, size_t state_len, uint64_t *values, size_t values_len);
uint32_t tmv_fine_last_scan_ratio(const uint64_t *state, size_t state_len, uint64_t *values, size_t values_len);
uint32_t tmv_fine_last_scan_peak_at(const uint64_t *state, size_t state_len, uint64_t *values, size_t values_len);
uint32_t tmv_fine_last_scan_origin(const uint64_t *state, size_t state_len, uint64_t *values, size_t values_len);
uint32_t tmv_fine_scans(const uint64_t *state, size_t state_len, uint64_t *values, size_t values_len);

/* ---- the tracker: follows a locked delay, cycle by cycle.
 *
 * Words:
 *    0 sample rate    1 to 5 its distances in samples: late, early, agreement, apart, lead
 *    6 flag: a move is pending    7 its delay    8 flag: there is a previous candidate    9 its delay
 *   10 run of edge cycles   11 run of contradicting cycles   12 run of unconfident cycles   13 flag: suspect
 *   14 largest run of contradicting cycles since the tracker was made
 * Rules: 1 to 5 follow from 0; 7 and 9 are below 2^62 if their flags are 1; 10 to 12 and 14 are below 2^32; flags are 0 or 1. If a flag is 0, calls leave the delay after it as it is.
 *
 * Every call refuses with 2 if the state does not have 15 words or the values do not have 1, with 1 if the rate is outside the table, and with 3 if a rule is broken. After
 * these, every call but tmv_tracker_new, reports included, refuses with 9 if word 14 is below word 11. */

uint64_t tmv_tracker_words(void);

/* Makes a tracker for a lock at this rate. */
uint32_t tmv_tracker_new(uint64_t *state, size_t state_len, uint32_t rate);

/* Takes one concluded cycle: its kind (TMV_CYCLE_*) and the candidate's delay (not looked at if the cycle is unconfident). values: 1 word.
 * Also refuses with 3 if the kind is none of the three, and with 5 if the alignment or a candidate's delay is 2^62 or more. */
uint32_t tmv_tracker_on_cycle(uint64_t *state, size_t state_len, uint64_t alignment, uint32_t kind, uint64_t delay, uint64_t *values, size_t values_len);

/* Tells the tracker that the stream was cut: the lock is suspect until it is confirmed again. */
uint32_t tmv_tracker_on_discontinuity(uint64_t *state, size_t state_len);

/* Reports the current run of contradicting cycles. values: 1 word. */
uint32_t tmv_tracker_jump_cycles(const uint64_t *state, size_t state_len, uint64_t *values, size_t values_len);

/* Reports the largest run of contradicting cycles since the tracker was made. A discontinuity and a move end a run, but do not change this. values: 1 word. */
uint32_t tmv_tracker_longest_run(const uint64_t *state, size_t state_len, uint64_t *values, size_t values_len);

/* Tell whether the lock is suspect, and whether the tracker has no unfinished business. TMV_NO or TMV_YES. */
uint32_t tmv_tracker_suspect(const uint64_t *state, size_t state_len);
uint32_t tmv_tracker_quiescent(const uint64_t *state, size_t state_len);

#ifdef __cplusplus
}
#endif

#endif
