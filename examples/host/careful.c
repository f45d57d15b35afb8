/* Our own policy. It asks more of a candidate than the original does before it locks, and less of a cycle before it rests:
 *   - near frames are tapered, since a tone that is cut off correlates with the places where it was cut, and locks onto them;
 *   - where a search begins at delay 0 nothing can lie before it, so that end is no edge: delays under 8 ms come to rest;
 *   - a candidate must be interior and no tie, also where it agrees with a region, and found twice unless it is strong and agrees with one;
 *   - no region is taken by itself: if no candidate agrees with it, the next round begins;
 *   - a cycle without a candidate goes on, so that sound with few frequencies has time to show where it is, and does not disturb a rest;
 *   - while a lock is not confirmed the scan runs beside it, and a region elsewhere ends it, long before the tracker would. */
#include "host.h"

#define STRONG 20      /* the ratio below which a candidate without a region is not believed, and with one not yet */
#define REARM_AFTER 16 /* frames taken since the scan has finished, before it begins again */
#define CYCLE 8        /* frames taken before a cycle ends without a candidate */

static void begin(struct host *host)
{
    memset(&host->search, 0, sizeof host->search);
}

static uint64_t apart(uint64_t one, uint64_t other)
{
    return one > other ? one - other : other - one;
}

static bool agree(const struct host *host, uint64_t delay, uint64_t region)
{
    return delay >= region ? delay - region <= host_ms(host, 32) : region - delay <= host_ms(host, 128);
}

static bool inside(const struct host *host, const struct tmv_candidate *candidate)
{
    const bool at_zero = host_range(host).first == 0 && candidate->first > host->settings.span / 2;

    return candidate->found && candidate->first == candidate->last && (host_interior(host, candidate->first) || at_zero);
}

static bool covers(const struct tmv_range range, uint64_t delay, uint64_t guard)
{
    return (range.first == 0 || delay >= range.first + guard) && delay + guard <= range.last;
}

/* To a region that the search does not cover, or with which the candidate disagrees; once a round. The candidate is then what the last frame comes to there. */
static void go_to(struct host *host, uint64_t region, struct tmv_candidate *found)
{
    const bool agreed = found->found && agree(host, found->delay, region);

    if (host->search.moved || (covers(host_range(host), region, host_ms(host, 8)) && (agreed || !found->found)))
        return;
    host_search_from(host, region, (uint64_t)host->settings.span * 3 / 4);
    host->search.moved = true;
    found->found = false;
    if (agreed)
        *found = host_rescan(host);
}

static bool believed(const struct host *host, const struct tmv_candidate *found, const struct tmv_region *region)
{
    return inside(host, found) && (region->found ? agree(host, found->delay, region->delay) : found->ratio >= STRONG);
}

/* A strong candidate that agrees with a region is a lock. Any other is looked for once more, by frames that had no part in it. */
static void consider(struct host *host, const struct tmv_candidate *found, bool region)
{
    struct search *search = &host->search;
    const bool again = search->pending && apart(found->delay, search->pending_at) <= host_ms(host, 1);

    if (again || (region && found->ratio >= STRONG)) {
        host_lock(host, found->delay, again ? "found twice" : "agrees with the region", found->ratio);
        return;
    }
    search->pending = true;
    search->pending_at = found->delay;
    search->moved = region;
    host_search_from(host, found->delay, host->settings.span / 2);
}

static void new_round(struct host *host)
{
    host_rearm(host);
    host_search_from(host, 0, 0);
    begin(host);
}

static void search(struct host *host, const struct sighting *seen)
{
    const struct tmv_region region = host_region(host);
    struct tmv_candidate found = seen->candidate;

    if (region.found)
        go_to(host, region.delay, &found);
    if (believed(host, &found, &region))
        consider(host, &found, region.found);
    else if (host_scan_finished(host) && seen->taken && ++host->search.waited == REARM_AFTER)
        new_round(host);
}

static enum tmv_cycle judge(const struct host *host, const struct tmv_candidate *candidate)
{
    return inside(host, candidate) ? TMVT_CYCLE_INTERIOR : TMVT_CYCLE_EDGE;
}

/* A region beside a lock: elsewhere it ends the lock; near by it confirms it, and a cycle that has no candidate begins anew. */
static bool doubt(struct host *host, const struct sighting *seen)
{
    const struct tmv_region region = host_region(host);
    const bool was_beside = host->search.beside;

    if (!seen->scanned)
        return false;
    host->search.beside = !inside(host, &seen->candidate);
    if (!host->search.beside)
        return false;
    if (was_beside && region.found && apart(region.delay, host->alignment) > host_ms(host, 30))
        return true;
    if (was_beside && region.found)
        host_restart(host);
    if (!was_beside || host_scan_finished(host))
        host_rearm(host);
    return false;
}

const struct policy careful = {"careful", true, CYCLE, true, begin, search, judge, doubt};
