/* A host of the library: it holds the parts and their memory, hands them the two streams, and carries out what a policy decides. docs/INTEGRATION.md has the rules. */
#ifndef HOST_H
#define HOST_H

#include "transform.h"
#include "trimolaveg_typed.h"

struct host;

/* What a fine frame brought: whether it was taken, and the candidate of a correlation, if one was due. */
struct sighting {
    bool taken;
    bool scanned; /* it was the second frame at this origin or a later one, so that there was a correlation */
    struct tmv_candidate candidate;
};

/* What a host believes. The library takes its word for it. */
struct policy {
    const char *name;
    bool tapered;                                                                     /* whether near frames get a Hann window */
    uint32_t cycle;                                                                   /* taken frames after which a cycle ends without a candidate; with one it ends earlier */
    bool forgiving;                                                                   /* whether a cycle without a candidate leaves a rest as it was */
    void (*begin)(struct host *host);                                                 /* the first round of a search, and each after a lock was given up */
    void (*search)(struct host *host, const struct sighting *seen);                   /* a fine frame without a lock */
    enum tmv_cycle (*judge)(const struct host *host, const struct tmv_candidate *of); /* what a cycle came to */
    bool (*doubt)(struct host *host, const struct sighting *seen);                    /* a fine frame with a lock: whether the policy gives it up by itself. NULL where it never does */
};

extern const struct policy original; /* what the Rust acquirer does */
extern const struct policy careful;  /* our own */

/* What a policy remembers of its search. */
struct search {
    bool moved;      /* whether the fine search was moved to a region in this round */
    uint32_t waited; /* frames taken since the scan was finished */
    bool pending;    /* whether a delay waits to be found again, and which: of a region, or of a candidate */
    uint64_t pending_at;
    /* the original's */
    uint32_t with_region; /* fine frames while there was a region */
    uint32_t refused;  /* regions that were found elsewhere */
    uint32_t patience; /* by how much it waits longer than the first time */
    /* the careful one's */
    bool beside; /* whether the scan runs beside a lock */
};

/* Whether a lock is at rest: the fine stage is then spared some samples. */
struct rest {
    uint32_t settled; /* cycles in a row that agreed with the alignment and with each other */
    uint32_t depth;   /* for how many cycles it rests */
    uint64_t samples; /* how many near samples of them are left */
    bool has_last;
    uint64_t last; /* the candidate of the cycle before */
};

/* The story as it happens. */
struct teller {
    void (*region)(const struct host *host, uint64_t at, struct tmv_frame frame); /* the others at host->next */
    void (*lock)(const struct host *host, const char *why, double ratio);
    void (*move)(const struct host *host, uint64_t from);
    void (*reacquire)(const struct host *host, enum tmv_verdict_kind why);
    void (*at_rest)(const struct host *host);
    void (*refused)(enum tmv_refusal refusal, const char *call);
};

struct settings {
    uint32_t rate;    /* Hz */
    uint32_t ceiling; /* ms: the longest delay that is looked for */
    uint32_t span;    /* samples: how many delays the fine stage searches at once */
    uint32_t ahead;   /* samples: how far the far side may be ahead of the near side */
};

struct host {
    struct settings settings;
    const struct policy *policy;
    const struct teller *teller;

    struct tmv_scan scan;
    struct tmv_fine fine;
    struct tmv_ring ring;
    struct tmv_tracker tracker;
    struct transform *transform;
    void *kept, *scratch, *frames; /* what scan and fine stage are lent */
    float *window;
    size_t window_len, frame_len, lent; /* lent: bytes in all */

    uint64_t next; /* the far index of the next near sample */
    bool locked, had_lock;
    uint64_t alignment; /* in samples; it stands until the next lock, also where the lock was given up */
    struct search search;
    struct rest rest;
};

/* Makes all parts. The settings must be inside the library's table; false where there is no memory. host_end is due in either case. */
bool host_begin(struct host *host, struct settings settings, const struct policy *policy, const struct teller *teller);
void host_end(struct host *host);

/* The two streams: far samples as they are played, then the near samples of the same moment. */
void host_played(struct host *host, const float *samples, size_t count);
void host_captured(struct host *host, const float *samples, size_t count);

/* For policies. */
uint64_t host_ms(const struct host *host, uint64_t ms); /* in samples, at least 1 */
struct tmv_region host_region(const struct host *host);
struct tmv_range host_range(const struct host *host);
bool host_scan_finished(const struct host *host);
bool host_scan_exhausted(const struct host *host);
uint64_t host_bin(const struct host *host);
bool host_interior(const struct host *host, uint64_t position);
void host_search_from(struct host *host, uint64_t delay, uint64_t before);
void host_restart(struct host *host);
void host_rearm(struct host *host);
struct tmv_candidate host_rescan(struct host *host);
void host_give_up(struct host *host, enum tmv_verdict_kind why);
void host_lock(struct host *host, uint64_t delay, const char *why, double ratio);

#endif
