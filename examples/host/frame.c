/* A fine frame: its far window, its spectrum, its correlation. */
#include "inside.h"

/* Reads the far samples that may have caused the frame that has just ended. Returns how many of them there are not. */
static struct tmv_missing read_window(struct host *host)
{
    struct tmv_missing missing = {0, 0};
    uint64_t back_off = 0;

    MUST(host, tmvt_fine_window_back_off(&host->fine, &back_off));
    MUST(host, tmvt_ring_window_floats(&host->ring, host->next - host->frame_len, back_off, host->window, host->window_len, &missing));
    return missing;
}

static struct tmv_candidate peak(struct host *host)
{
    struct tmv_candidate candidate = {false, 0, 0, 0, 0};

    MUST(host, tmvt_fine_peak(&host->fine, transform_back(host->transform), host->window_len, &candidate));
    return candidate;
}

/* The frame that has just ended: gate, spectrum, and from the second one on a correlation. */
struct sighting host_look(struct host *host)
{
    struct sighting seen = {false, false, {false, 0, 0, 0, 0}};
    enum tmv_gate gate = TMVT_GATE_SKIPPED;
    const struct tmv_missing missing = read_window(host);

    MUST(host, tmvt_fine_gate(&host->fine, host->window, host->window_len, missing.head, missing.tail, &gate));
    seen.taken = gate == TMVT_GATE_FIRST || gate == TMVT_GATE_LATER;
    seen.scanned = gate == TMVT_GATE_LATER;
    if (seen.taken)
        transform_cross(host->transform, host->fine.retained, host->window, gate == TMVT_GATE_FIRST ? NEW_SUM : ADDED);
    if (seen.scanned)
        seen.candidate = peak(host);
    return seen;
}

/* The retained frame once more, by itself, at the origin to which the search has just moved. */
struct tmv_candidate host_rescan(struct host *host)
{
    struct tmv_candidate candidate = {false, 0, 0, 0, 0};
    enum tmv_rescan answer = TMVT_RESCAN_SKIPPED;
    const struct tmv_missing missing = read_window(host);

    MUST(host, tmvt_fine_rescan(&host->fine, host->window, host->window_len, missing.head, missing.tail, &answer));
    if (answer == TMVT_RESCAN_TAKEN) {
        transform_cross(host->transform, host->fine.retained, host->window, APART);
        candidate = peak(host);
    }
    return candidate;
}
