#include "rest.h"

#define CYCLES 4  /* settled in a row before the first rest */
#define DEEPEST 4 /* cycles */

void rest_end(struct rest *rest)
{
    memset(rest, 0, sizeof *rest);
}

size_t rest_spares(struct rest *rest, size_t count)
{
    const size_t spared = rest->samples < count ? (size_t)rest->samples : count;

    rest->samples -= spared;
    return spared;
}

static uint64_t apart(uint64_t one, uint64_t other)
{
    return one > other ? one - other : other - one;
}

bool rest_after(struct rest *rest, uint64_t near_enough, uint64_t cycle, uint64_t alignment, bool quiescent, enum tmv_cycle kind, uint64_t delay)
{
    const bool had_last = rest->has_last;
    const uint64_t last = rest->last;

    if (kind != TMVT_CYCLE_INTERIOR) {
        rest_end(rest);
        return false;
    }
    rest->has_last = true;
    rest->last = delay;
    if (!quiescent || apart(delay, alignment) > near_enough || !had_last || apart(delay, last) > near_enough) {
        rest->settled = rest->depth = 0;
        return false;
    }
    if (++rest->settled < CYCLES)
        return false;
    rest->depth = rest->depth == 0 ? 1 : rest->depth == DEEPEST ? DEEPEST : 2 * rest->depth;
    rest->samples = rest->depth * cycle;
    return rest->settled == CYCLES;
}
