/* What the library knows, and what a policy can have it do. */
#include "inside.h"

uint64_t host_ms(const struct host *host, uint64_t ms)
{
    return TMV_PER_MS(ms, host->settings.rate);
}

struct tmv_region host_region(const struct host *host)
{
    struct tmv_region region = {false, 0, 0};

    MUST(host, tmvt_scan_region(&host->scan, &region));
    return region;
}

struct tmv_range host_range(const struct host *host)
{
    struct tmv_range range = {0, 0};

    MUST(host, tmvt_fine_search_range(&host->fine, &range));
    return range;
}

bool host_scan_finished(const struct host *host)
{
    bool finished = false;

    MUST(host, tmvt_scan_finished(&host->scan, &finished));
    return finished;
}

bool host_scan_exhausted(const struct host *host)
{
    bool exhausted = false;

    MUST(host, tmvt_scan_exhausted(&host->scan, &exhausted));
    return exhausted;
}

uint64_t host_bin(const struct host *host)
{
    uint64_t samples = 0;

    MUST(host, tmvt_scan_bin_samples(&host->scan, &samples));
    return samples;
}

/* Whether a peak stands 8 ms or more from both ends of the search. Nearer to one, the true peak may lie outside. */
bool host_interior(const struct host *host, uint64_t position)
{
    return position >= host_ms(host, 8) && position + host_ms(host, 8) <= host->settings.span;
}

void host_search_from(struct host *host, uint64_t delay, uint64_t before)
{
    MUST(host, tmvt_fine_relocate(&host->fine, delay > before ? delay - before : 0));
}

void host_restart(struct host *host)
{
    MUST(host, tmvt_fine_restart(&host->fine));
}

void host_rearm(struct host *host)
{
    MUST(host, tmvt_scan_rearm(&host->scan));
}
