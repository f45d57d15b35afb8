#include "inside.h"

#include <stdlib.h>

#include "rest.h"

void host_must(const struct host *host, enum tmv_refusal refusal, const char *call)
{
    if (refusal)
        host->teller->refused(refusal, call);
}

/* ---- making */

static bool lend(struct host *host)
{
    const struct settings *set = &host->settings;
    const size_t transform_len = (size_t)tmv_fine_transform_len(set->span);
    const size_t kept = TMV_SCAN_KEPT_BYTES(set->rate, set->ceiling), scratch = TMV_SCAN_SCRATCH_BYTES(set->rate, set->ceiling), frames = TMV_FINE_KEPT_BYTES(set->span);

    host->frame_len = TMV_FINE_FRAME_LEN(set->span);
    host->window_len = TMV_FINE_WINDOW_LEN(set->span);
    host->ring.buf_len = transform_len + TMV_PER_MS(set->ceiling, set->rate) + set->ahead;
    host->kept = malloc(kept);
    host->scratch = malloc(scratch);
    host->frames = malloc(frames);
    host->ring.buf = calloc(host->ring.buf_len, sizeof *host->ring.buf);
    host->window = calloc(host->window_len, sizeof *host->window);
    host->transform = transform_new(transform_len, host->frame_len, host->policy->tapered);
    host->lent = kept + scratch + frames + host->ring.buf_len * sizeof *host->ring.buf + host->window_len * sizeof *host->window;
    return host->kept && host->scratch && host->frames && host->ring.buf && host->window && host->transform &&
           !tmvt_scan_lend(&host->scan, set->rate, set->ceiling, host->kept, kept, host->scratch, scratch) && !tmvt_fine_lend(&host->fine, set->span, host->frames, frames);
}

bool host_begin(struct host *host, struct settings settings, const struct policy *policy, const struct teller *teller)
{
    memset(host, 0, sizeof *host);
    host->settings = settings;
    host->policy = policy;
    host->teller = teller;
    if (!lend(host))
        return false;
    MUST(host, tmvt_scan_new(&host->scan, settings.rate, settings.ceiling));
    MUST(host, tmvt_fine_new(&host->fine, settings.span));
    MUST(host, tmvt_ring_new(&host->ring));
    policy->begin(host);
    return true;
}

void host_end(struct host *host)
{
    free(host->kept);
    free(host->scratch);
    free(host->frames);
    free(host->ring.buf);
    free(host->window);
    if (host->transform)
        transform_free(host->transform);
}

/* ---- the two streams */

static void fine_frame(struct host *host)
{
    const struct sighting seen = host_look(host);

    if (!host->locked)
        host->policy->search(host, &seen);
    else if (host->policy->doubt && host->policy->doubt(host, &seen))
        host_give_up(host, TMVT_VERDICT_REACQUIRE_JUMP);
    else if (host_concludes(host, &seen))
        host_follow(host, &seen.candidate);
}

/* The scan comes first: it refuses what the ring would take, and the two must count alike. */
void host_played(struct host *host, const float *samples, size_t count)
{
    MUST(host, tmvt_scan_push_far(&host->scan, samples, count));
    MUST(host, tmvt_ring_push_floats(&host->ring, samples, count));
}

/* Near samples for the scan, each frame scored as soon as it is full. */
static void scan_run(struct host *host, const float *samples, size_t count)
{
    for (size_t done = 0, taken = 0; done < count; done += taken) {
        enum tmv_taking taking = TMVT_TAKING_IGNORED;
        struct tmv_frame frame;
        taken = count - done; /* of a refused run none is offered again */
        MUST(host, tmvt_scan_push_near_run(&host->scan, samples + done, count - done, host->next + done, &taking, &taken));
        if (taking != TMVT_TAKING_FULL)
            continue;
        MUST(host, tmvt_scan_observe(&host->scan, &frame));
        if (frame.kind == TMVT_FRAME_REGION)
            host->teller->region(host, host->next + done + taken, frame);
    }
}

/* Near samples for the fine stage, up to where its frame is full: how many it took. */
static size_t fine_run(struct host *host, const float *samples, size_t count, bool *full)
{
    enum tmv_fine_taking taking = TMVT_FINE_TAKEN;
    size_t taken = count;

    MUST(host, tmvt_fine_push_near_run(&host->fine, samples, count, &taking, &taken));
    *full = taking == TMVT_FINE_FULL;
    return taken;
}

/* Up to where a fine frame ends the two do not heed each other; there the scan must have seen all samples that the frame has. */
static size_t captured_run(struct host *host, const float *samples, size_t count)
{
    bool full = false;
    const size_t spared = rest_spares(&host->rest, count);
    const size_t taken = spared ? spared : fine_run(host, samples, count, &full);

    if (!host->locked || host->search.beside)
        scan_run(host, samples, taken);
    host->next += taken;
    if (full)
        fine_frame(host);
    return taken;
}

void host_captured(struct host *host, const float *samples, size_t count)
{
    size_t done = 0;

    while (done < count)
        done += captured_run(host, samples + done, count - done);
}
