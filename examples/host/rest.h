/* When a lock is at rest: the fine stage need not look all the time at an alignment that it has confirmed again and again (docs/INTEGRATION.md, section 5). */
#ifndef HOST_REST_H
#define HOST_REST_H

#include "host.h"

void rest_end(struct rest *rest);

/* How many of the next samples the fine stage is spared; 0 where it is to take them. */
size_t rest_spares(struct rest *rest, size_t count);

/* After a cycle that held: whether it brings the first rest since rest_end. `near_enough` and `cycle` are in samples. */
bool rest_after(struct rest *rest, uint64_t near_enough, uint64_t cycle, uint64_t alignment, bool quiescent, enum tmv_cycle kind, uint64_t delay);

#endif
