/* What happens, as lines: the time, what it is, milliseconds. */
#ifndef HOST_STORY_H
#define HOST_STORY_H

#include "host.h"

extern const struct teller story;

/* The last line. */
void story_end(const struct host *host);

#endif
