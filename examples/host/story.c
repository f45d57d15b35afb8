#include "story.h"

#include <stdio.h>
#include <stdlib.h>

static struct {
    unsigned locks, moves, reacquires;
    bool resting;
} so_far;

static double ms(const struct host *host, uint64_t samples)
{
    return 1e3 * (double)samples / host->settings.rate;
}

static void line_at(const struct host *host, uint64_t at, const char *what)
{
    printf("%8.3f s  %-9s  ", (double)at / host->settings.rate, what);
}

static void line(const struct host *host, const char *what)
{
    line_at(host, host->next, what);
}

static void delay(const struct host *host, uint64_t samples)
{
    printf("%.2f ms (%llu samples)", ms(host, samples), (unsigned long long)samples);
}

static void region(const struct host *host, uint64_t at, struct tmv_frame frame)
{
    line_at(host, at, "region");
    printf("about %.0f ms, correlation %.2f\n", ms(host, frame.delay), frame.correlation);
}

static void lock(const struct host *host, const char *why, double ratio)
{
    so_far.locks++;
    line(host, "lock");
    delay(host, host->alignment);
    printf(", %s", why);
    if (ratio > 0)
        printf(", %.1f times the mean", ratio);
    puts("");
}

static void move(const struct host *host, uint64_t from)
{
    so_far.moves++;
    so_far.resting = false;
    line(host, "move");
    delay(host, host->alignment);
    printf(", from %.2f ms\n", ms(host, from));
}

static void reacquire(const struct host *host, enum tmv_verdict_kind why)
{
    so_far.reacquires++;
    so_far.resting = false;
    line(host, "reacquire");
    printf("%s\n", tmvt_verdict_text(why) + sizeof "reacquire");
}

/* A lock that looks closer for a while and rests again is no news. */
static void at_rest(const struct host *host)
{
    if (so_far.resting)
        return;
    so_far.resting = true;
    line(host, "rest");
    delay(host, host->alignment);
    puts("");
}

static void refused(enum tmv_refusal refusal, const char *call)
{
    fprintf(stderr, "host: %s: refused, %s\n", call, tmvt_refusal_text(refusal));
    exit(3);
}

const struct teller story = {region, lock, move, reacquire, at_rest, refused};

void story_end(const struct host *host)
{
    line(host, "end");
    if (!host->had_lock)
        printf("no echo found");
    else
        delay(host, host->alignment);
    if (host->had_lock)
        printf(", %s", !host->locked ? "given up" : so_far.resting ? "at rest" : "locked");
    printf("; locks %u, moves %u, reacquires %u\n", so_far.locks, so_far.moves, so_far.reacquires);
}
