/* The whole chain over two streams, as docs/INTEGRATION.md has it: coarse scan, fine stage, tracker, rearm. It is all of a host but its sound and its transform; tests/integration/rooms.c lends it both. */
#include "trimolaveg_typed.h"

#define RATE 16000
#define CEILING 500 /* ms */
#define SPAN 2048   /* samples: 128 ms */
#define AHEAD 1600  /* how far the far side may be ahead of the near side, in samples */
#define BLOCK 160   /* far samples that come at once */
#define PATIENCE 16 /* frames taken without a lock after the scan has finished */
#define TRANSFORM TMV_FINE_TRANSFORM_LEN(SPAN)
#define FRAME TMV_FINE_FRAME_LEN(SPAN)
#define MS(ms) TMV_PER_MS(ms, RATE)

/* The host's own. `cross` makes the phase-transformed conj(near) * far of one frame: as a new sum, added to the sum, or apart from it. `correlation` is what it made last, transformed back. */
enum spectrum { NEW_SUM, ADDED, APART };
void cross(const float *near_frame, const float *far_window, enum spectrum how);
const float *correlation(void);
void refused(enum tmv_refusal refusal);

/* What it offers. */
extern uint64_t alignment; /* in samples, once there was a lock */
extern bool locked;
void begin(void);
void played(const float samples[BLOCK]);
void captured(const float *samples, size_t count);
void cut(uint64_t index);

static TMV_SCAN_KEPT(RATE, CEILING) scan_kept;
static TMV_SCAN_SCRATCH(RATE, CEILING) scan_scratch;
static TMV_FINE_KEPT(SPAN) fine_kept;
static uint32_t ring_kept[TRANSFORM + MS(CEILING) + AHEAD];
static struct tmv_scan scan = TMV_SCAN_OVER(scan_kept, scan_scratch);
static struct tmv_fine fine = TMV_FINE_OVER(fine_kept);
static struct tmv_ring ring = TMV_RING_OVER(ring_kept);
static struct tmv_tracker tracker;
static float window[TRANSFORM];
static uint64_t next; /* the far index of the next near sample */
static bool relocated;
static int waited; /* frames taken since the scan has finished */
uint64_t alignment;
bool locked;

static void must(enum tmv_refusal refusal)
{
    if (refusal)
        refused(refusal);
}

static bool interior(uint64_t k)
{
    return k >= MS(8) && k + MS(8) <= SPAN;
}

static bool agree(uint64_t delay, uint64_t region)
{
    return delay >= region ? delay - region <= MS(32) : region - delay <= MS(128);
}

/* Reads the far samples that may have caused the frame that has just ended. Returns how many of them there are not. */
static struct tmv_missing read_window(void)
{
    struct tmv_missing missing = {0, 0};
    uint64_t back_off = 0;

    must(tmvt_fine_window_back_off(&fine, &back_off));
    must(tmvt_ring_window_floats(&ring, next - FRAME, back_off, window, TRANSFORM, &missing));
    return missing;
}

static void search_from(uint64_t delay, uint64_t before)
{
    must(tmvt_fine_relocate(&fine, delay > before ? delay - before : 0));
}

static void search_around(uint64_t delay)
{
    uint64_t ceiling = 0;

    must(tmvt_scan_ceiling_samples(&scan, &ceiling));
    search_from(delay < ceiling ? delay : ceiling, SPAN / 2);
}

static void lock(uint64_t delay)
{
    alignment = delay;
    locked = true;
    must(tmvt_tracker_new(&tracker, RATE));
    search_around(delay);
}

/* A new round. The alignment stays until the next lock. */
static void rearm(void)
{
    must(tmvt_scan_rearm(&scan));
    if (locked || relocated)
        search_from(0, 0);
    locked = relocated = false;
    waited = 0;
}

/* The retained frame once more, at the origin to which the search has just moved. */
static struct tmv_candidate rescan(void)
{
    struct tmv_candidate found = {false, 0, 0, 0, 0};
    enum tmv_rescan answer = TMVT_RESCAN_SKIPPED;
    const struct tmv_missing missing = read_window();

    must(tmvt_fine_rescan(&fine, window, TRANSFORM, missing.head, missing.tail, &answer));
    if (answer == TMVT_RESCAN_TAKEN) {
        cross(fine.retained, window, APART);
        must(tmvt_fine_peak(&fine, correlation(), TRANSFORM, &found));
    }
    return found;
}

/* A fine frame without a lock: rules 1 to 3. */
static void search(struct tmv_candidate found)
{
    struct tmv_region region = {false, 0, 0};
    struct tmv_range range = {0, 0};

    must(tmvt_scan_region(&scan, &region));
    must(tmvt_fine_search_range(&fine, &range));
    if (!region.found) {
        if (found.found && interior(found.first) && found.ratio >= 20)
            lock(found.delay);
        return;
    }
    const bool agreed = found.found && agree(found.delay, region.delay);
    const bool inside = region.delay >= range.first + MS(8) && region.delay + MS(8) <= range.last;
    if (relocated || (inside && (agreed || !found.found))) {
        if (agreed)
            lock(found.delay);
        return;
    }
    search_from(region.delay, SPAN * 3 / 4);
    relocated = true;
    if (agreed)
        found = rescan();
    if (agreed && found.found && interior(found.first) && agree(found.delay, region.delay))
        lock(found.delay);
}

/* The end of a cycle. */
static void follow(struct tmv_candidate found)
{
    struct tmv_verdict verdict = {TMVT_VERDICT_HOLD, 0};
    struct tmv_range range = {0, 0};
    enum tmv_cycle kind = TMVT_CYCLE_UNCONFIDENT;

    must(tmvt_fine_search_range(&fine, &range));
    if (found.found) /* that delay 0 is no edge is a departure from the original */
        kind = interior(found.first) || (range.first == 0 && found.first > SPAN / 2) ? TMVT_CYCLE_INTERIOR : TMVT_CYCLE_EDGE;
    must(tmvt_tracker_on_cycle(&tracker, alignment, kind, found.delay, &verdict));
    switch (verdict.kind) {
    case TMVT_VERDICT_HOLD:
        must(tmvt_fine_restart(&fine));
        break;
    case TMVT_VERDICT_MOVE:
        alignment = verdict.alignment;
        search_around(alignment);
        break;
    case TMVT_VERDICT_REACQUIRE_EDGE:
    case TMVT_VERDICT_REACQUIRE_LOST:
    case TMVT_VERDICT_REACQUIRE_JUMP:
    case TMVT_VERDICT_REACQUIRE_SEAM:
        rearm();
        break;
    }
}

static void fine_frame(void)
{
    struct tmv_candidate found = {false, 0, 0, 0, 0};
    enum tmv_gate gate = TMVT_GATE_SKIPPED;
    const struct tmv_missing missing = read_window();
    bool finished = false;

    must(tmvt_fine_gate(&fine, window, TRANSFORM, missing.head, missing.tail, &gate));
    const bool taken = gate == TMVT_GATE_FIRST || gate == TMVT_GATE_LATER;
    if (taken)
        cross(fine.retained, window, gate == TMVT_GATE_FIRST ? NEW_SUM : ADDED);
    if (gate == TMVT_GATE_LATER)
        must(tmvt_fine_peak(&fine, correlation(), TRANSFORM, &found));
    if (locked && gate == TMVT_GATE_LATER)
        follow(found);
    else if (!locked) {
        search(found);
        must(tmvt_scan_finished(&scan, &finished));
        if (!locked && finished && taken && ++waited == PATIENCE)
            rearm();
    }
}

void begin(void)
{
    must(tmvt_scan_new(&scan, RATE, CEILING));
    must(tmvt_fine_new(&fine, SPAN));
    must(tmvt_ring_new(&ring));
    next = waited = 0;
    locked = relocated = false;
}

void played(const float samples[BLOCK])
{
    must(tmvt_scan_push_far(&scan, samples, BLOCK));
    must(tmvt_ring_push_floats(&ring, samples, BLOCK));
}

/* Near samples for the scan, from index `next` on. Each frame is scored as soon as it is full. */
static void scan_run(const float *samples, size_t count)
{
    for (size_t done = 0, taken = 0; done < count; done += taken) {
        enum tmv_taking taking = TMVT_TAKING_IGNORED;
        struct tmv_frame frame;
        taken = count - done; /* of a refused run none is offered again */
        must(tmvt_scan_push_near_run(&scan, samples + done, count - done, next + done, &taking, &taken));
        if (taking == TMVT_TAKING_FULL)
            must(tmvt_scan_observe(&scan, &frame));
    }
}

/* The fine stage takes samples up to where its frame is full; there the scan must have seen them too. */
void captured(const float *samples, size_t count)
{
    for (size_t done = 0, taken = 0; done < count; done += taken) {
        enum tmv_fine_taking taking = TMVT_FINE_TAKEN;
        taken = count - done;
        must(tmvt_fine_push_near_run(&fine, samples + done, count - done, &taking, &taken));
        if (!locked)
            scan_run(samples + done, taken);
        next += taken;
        if (taking == TMVT_FINE_FULL)
            fine_frame();
    }
}

/* The capture stream was cut, and goes on at this far index. */
void cut(uint64_t index)
{
    must(tmvt_scan_discard_near(&scan));
    must(tmvt_fine_restart(&fine));
    if (locked)
        must(tmvt_tracker_on_discontinuity(&tracker));
    next = index;
}
