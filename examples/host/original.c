/* The policy of the Rust original (its acquire.rs), rule by rule: docs/INTEGRATION.md, section 4. What it gets wrong is left as it is, so that results can be compared. */
#include "host.h"

#define STRONG 20          /* the ratio that is believed without a region */
#define REGION_PATIENCE 4  /* fine frames with a region before the region is taken by itself */
#define MOST_REFUSED 8     /* regions that were not found again, before none is taken by itself any more */
#define REARM_AFTER 16     /* frames taken since the scan has given up */
#define MOST_PATIENCE 16   /* by how much that grows */

static void begin(struct host *host)
{
    const uint32_t refused = host->search.refused;

    memset(&host->search, 0, sizeof host->search);
    host->search.refused = refused;
    host->search.patience = 1;
}

static bool agree(const struct host *host, uint64_t delay, uint64_t region)
{
    return delay >= region ? delay - region <= host_ms(host, 32) : region - delay <= host_ms(host, 128);
}

/* A scan that has given up is begun again after 16 taken frames, then after 32 and so on. */
static void rearm_if_given_up(struct host *host, bool taken)
{
    struct search *search = &host->search;

    if (!host_scan_exhausted(host))
        return;
    search->waited += taken;
    if (search->waited == REARM_AFTER)
        search->pending = false;
    if (search->waited < REARM_AFTER * search->patience)
        return;
    search->waited = 0;
    search->patience = search->patience * 2 < MOST_PATIENCE ? search->patience * 2 : MOST_PATIENCE;
    host_rearm(host);
    if (host_range(host).first != 0)
        host_search_from(host, 0, 0);
    search->moved = search->pending = false;
    search->with_region = 0;
}

/* Rule 1: whether the search is to be moved to the region. */
static bool must_move(const struct host *host, const struct tmv_candidate *found, const struct tmv_region *region)
{
    const struct tmv_range range = host_range(host);
    const bool inside = region->delay >= range.first + host_ms(host, 8) && region->delay + host_ms(host, 8) <= range.last;

    return !host->search.moved && (!inside || (found->found && !agree(host, found->delay, region->delay)));
}

static void move_to(struct host *host, const struct tmv_candidate *found, const struct tmv_region *region)
{
    const bool agreed = found->found && agree(host, found->delay, region->delay);

    host_search_from(host, region->delay, (uint64_t)host->settings.span * 3 / 4);
    host->search.moved = true;
    host->search.with_region = 0;
    if (!agreed)
        return;
    const struct tmv_candidate again = host_rescan(host);
    if (again.found && host_interior(host, again.first) && agree(host, again.delay, region->delay))
        host_lock(host, again.delay, "agrees with the region, looked at once more", again.ratio);
}

/* Rules 2 and 3. */
static bool promoted(struct host *host, const struct tmv_candidate *found, const struct tmv_region *region)
{
    const bool has = region->found || host->search.pending;

    if (!found->found)
        return false;
    if (has && agree(host, found->delay, region->found ? region->delay : host->search.pending_at))
        host_lock(host, found->delay, "agrees with the region", found->ratio);
    else if (!has && host_interior(host, found->first) && found->ratio >= STRONG)
        host_lock(host, found->delay, "strong by itself", found->ratio);
    return host->locked;
}

/* A region that waits to be found again: taken by itself if it is, and if not, the new one waits. */
static void confirm(struct host *host, const struct tmv_region *region)
{
    struct search *search = &host->search;
    const uint64_t before = host_bin(host) + 16 + host_ms(host, 64);

    if (!region->found)
        return;
    if ((region->delay > search->pending_at ? region->delay - search->pending_at : search->pending_at - region->delay) <= host_ms(host, 30)) {
        host_lock(host, region->delay > before ? region->delay - before : 0, "the region by itself", 0);
        return;
    }
    search->pending = ++search->refused < MOST_REFUSED;
    search->pending_at = region->delay;
    if (search->pending)
        host_rearm(host);
}

/* Rule 4. */
static void region_alone(struct host *host, const struct tmv_region *region)
{
    struct search *search = &host->search;

    if (search->pending)
        confirm(host, region);
    else if (search->refused < MOST_REFUSED && search->with_region >= REGION_PATIENCE && region->found) {
        search->pending = true;
        search->pending_at = region->delay;
        search->with_region = 0;
        host_rearm(host);
    }
}

static void search(struct host *host, const struct sighting *seen)
{
    const struct tmv_region region = host_region(host);

    host->search.with_region += region.found;
    rearm_if_given_up(host, seen->taken);
    if (region.found && must_move(host, &seen->candidate, &region))
        move_to(host, &seen->candidate, &region);
    else if (!promoted(host, &seen->candidate, &region))
        region_alone(host, &region);
    if (host->locked) {
        host->search.pending = false;
        host->search.waited = 0;
        host->search.patience = 1;
    }
}

static enum tmv_cycle judge(const struct host *host, const struct tmv_candidate *candidate)
{
    return host_interior(host, candidate->first) ? TMVT_CYCLE_INTERIOR : TMVT_CYCLE_EDGE;
}

const struct policy original = {"original", false, 2, false, begin, search, judge, NULL};
