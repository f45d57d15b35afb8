/* What the files of the host share with each other and with nobody else. */
#ifndef HOST_INSIDE_H
#define HOST_INSIDE_H

#include "host.h"

/* A call that is refused here is a mistake of this program: what may be wrong in files was found before. */
#define MUST(host, call) host_must(host, call, #call)
void host_must(const struct host *host, enum tmv_refusal refusal, const char *call);

/* The fine frame that has just ended. */
struct sighting host_look(struct host *host);

/* Whether a fine frame ends a cycle, and what follows from it for a lock. */
bool host_concludes(const struct host *host, const struct sighting *seen);
void host_follow(struct host *host, const struct tmv_candidate *candidate);

#endif
