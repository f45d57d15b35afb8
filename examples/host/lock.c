/* From a lock on: cycles, moves, rest, and the end of it. */
#include "inside.h"
#include "rest.h"

static void search_around(struct host *host, uint64_t delay)
{
    uint64_t ceiling = 0;

    MUST(host, tmvt_scan_ceiling_samples(&host->scan, &ceiling));
    host_search_from(host, delay < ceiling ? delay : ceiling, host->settings.span / 2);
}

void host_lock(struct host *host, uint64_t delay, const char *why, double ratio)
{
    host->alignment = delay;
    host->locked = host->had_lock = true;
    MUST(host, tmvt_tracker_new(&host->tracker, host->settings.rate));
    search_around(host, delay);
    rest_end(&host->rest);
    host->teller->lock(host, why, ratio);
}

static void moved(struct host *host, uint64_t to)
{
    const uint64_t from = host->alignment, centre = host_range(host).first + host->settings.span / 2;

    host->alignment = to;
    rest_end(&host->rest);
    if ((to > centre ? to - centre : centre - to) > host->settings.span / 4)
        search_around(host, to);
    else
        host_restart(host);
    host->teller->move(host, from);
}

void host_give_up(struct host *host, enum tmv_verdict_kind why)
{
    host->locked = false;
    rest_end(&host->rest);
    host_search_from(host, 0, 0);
    host->policy->begin(host);
    host->teller->reacquire(host, why);
}

static void held(struct host *host, enum tmv_cycle kind, uint64_t delay)
{
    bool quiescent = false;

    MUST(host, tmvt_tracker_quiescent(&host->tracker, &quiescent));
    host_restart(host);
    if (kind == TMVT_CYCLE_UNCONFIDENT && host->policy->forgiving)
        return;
    if (rest_after(&host->rest, host_ms(host, 4), 2 * host->frame_len, host->alignment, quiescent, kind, delay))
        host->teller->at_rest(host);
}

/* Whether a correlation ends a cycle. */
bool host_concludes(const struct host *host, const struct sighting *seen)
{
    uint64_t frames = 0;

    MUST(host, tmvt_fine_frames(&host->fine, &frames));
    return seen->scanned && (seen->candidate.found || frames >= host->policy->cycle);
}

/* The end of a cycle. */
void host_follow(struct host *host, const struct tmv_candidate *candidate)
{
    struct tmv_verdict verdict = {TMVT_VERDICT_HOLD, 0};
    const enum tmv_cycle kind = candidate->found ? host->policy->judge(host, candidate) : TMVT_CYCLE_UNCONFIDENT;

    MUST(host, tmvt_tracker_on_cycle(&host->tracker, host->alignment, kind, candidate->delay, &verdict));
    switch (verdict.kind) {
    case TMVT_VERDICT_HOLD:
        held(host, kind, candidate->delay);
        break;
    case TMVT_VERDICT_MOVE:
        moved(host, verdict.alignment);
        break;
    case TMVT_VERDICT_REACQUIRE_EDGE:
    case TMVT_VERDICT_REACQUIRE_LOST:
    case TMVT_VERDICT_REACQUIRE_JUMP:
    case TMVT_VERDICT_REACQUIRE_SEAM:
        host_rearm(host);
        host_give_up(host, verdict.kind);
        break;
    }
}
