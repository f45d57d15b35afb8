/* host [OPTION ..] PLAYED HEARD: two sound files, of what a loudspeaker played and of what a microphone heard meanwhile; tells where the echo is, as it is found and followed. */
#include "sound.h"
#include "story.h"

#include <stdio.h>
#include <stdlib.h>
#include <time.h>

#define SCAN_FRAME 0.256 /* s */

struct options {
    const char *played, *heard;
    int played_channel, heard_channel;
    uint32_t ceiling, span; /* ms */
    const struct policy *policy;
    bool cost;
};

static int usage(void)
{
    fputs("host [OPTION ..] PLAYED HEARD\n"
          "  --policy careful|original   what is believed (careful)\n"
          "  --ceiling MS                the longest delay that is looked for (500)\n"
          "  --span MS                   how much of it the fine stage searches at once (128)\n"
          "  --played-channel N          which channel of a file with several, from 1\n"
          "  --heard-channel N\n"
          "  --cost                      processor time and memory, at the end\n"
          "Ends with 0 where the files were read to their end, 1 where a file does not serve, 2 where it was not called as above.\n",
          stderr);
    return 2;
}

static bool number(const char *text, uint32_t *value)
{
    char *end;
    const unsigned long read = strtoul(text, &end, 10);

    *value = (uint32_t)read;
    return *text >= '0' && *text <= '9' && *end == 0 && read > 0 && read <= 100000;
}

static bool option(struct options *options, const char *name, const char *value)
{
    uint32_t count = 0;

    if (!strcmp(name, "--policy")) {
        options->policy = !strcmp(value, original.name) ? &original : !strcmp(value, careful.name) ? &careful : NULL;
        return options->policy != NULL;
    }
    if (!number(value, &count))
        return false;
    if (!strcmp(name, "--ceiling"))
        options->ceiling = count;
    else if (!strcmp(name, "--span"))
        options->span = count;
    else if (!strcmp(name, "--played-channel"))
        options->played_channel = (int)count;
    else if (!strcmp(name, "--heard-channel"))
        options->heard_channel = (int)count;
    else
        return false;
    return true;
}

static bool parse(struct options *options, int count, char **words)
{
    int at = 1;

    for (; at < count && words[at][0] == '-'; at++) {
        if (!strcmp(words[at], "--cost"))
            options->cost = true;
        else if (at + 1 == count || !option(options, words[at], words[at + 1]))
            return false;
        else
            at++;
    }
    if (count - at != 2)
        return false;
    options->played = words[at];
    options->heard = words[at + 1];
    return true;
}

/* Two files that were recorded together have one rate, and must last until a first region can come. */
static bool serve(const struct sound *played, const struct sound *heard, uint32_t ceiling)
{
    const struct sound *shorter = sound_seconds(played) < sound_seconds(heard) ? played : heard;
    const double least = SCAN_FRAME * (ceiling / 256 + (ceiling % 256 != 0) + 4);

    if (heard->info.samplerate != played->info.samplerate)
        fprintf(stderr, "host: %s: %d Hz, and %s has %d Hz: convert one of them\n", heard->path, heard->info.samplerate, played->path, played->info.samplerate);
    else if (!TMV_RATE_ALLOWED((unsigned long)played->info.samplerate))
        fprintf(stderr, "host: %s: %d Hz is outside 8000 to 192000 Hz\n", played->path, played->info.samplerate);
    else if (sound_seconds(shorter) < least)
        fprintf(stderr, "host: %s: %.2f s are too short: with a ceiling of %u ms nothing can be found before %.2f s\n", shorter->path, sound_seconds(shorter), ceiling, least);
    else
        return true;
    return false;
}

static double processor_time(void)
{
    return (double)clock() / CLOCKS_PER_SEC;
}

static void tell_cost(const struct host *host, double seconds)
{
    printf("cost: %.2f ms for a second of sound; %zu bytes lent to the library, %zu for the transform\n", 1e3 * seconds * host->settings.rate / (double)host->next, host->lent,
           transform_bytes(host->transform));
}

/* Both files to the end of the shorter one, 10 ms at a time. */
static void run(struct host *host, struct sound *played, struct sound *heard)
{
    float far_block[1920], near_block[1920];
    const size_t block = host->settings.rate / 100;

    for (;;) {
        const size_t far_count = sound_read(played, far_block, block), near_count = sound_read(heard, near_block, block);
        host_played(host, far_block, far_count);
        host_captured(host, near_block, near_count < far_count ? near_count : far_count);
        if (far_count < block || near_count < block)
            break;
    }
}

static void tell_not_finite(const struct sound *sound)
{
    if (sound->not_finite)
        printf("%s: %llu samples are no numbers and were read as 0\n", sound->path, (unsigned long long)sound->not_finite);
}

static bool allowed(const struct settings *settings)
{
    if (!TMV_CEILING_ALLOWED(settings->ceiling))
        fprintf(stderr, "host: a ceiling of %u ms is outside 1 to 4000 ms\n", settings->ceiling);
    else if (!TMV_SPAN_ALLOWED(settings->span))
        fprintf(stderr, "host: a span of %u samples is outside 1 to 32768\n", settings->span);
    else
        return true;
    return false;
}

static int tell(const struct options *options, struct sound *played, struct sound *heard)
{
    const uint32_t rate = (uint32_t)played->info.samplerate;
    const struct settings settings = {rate, options->ceiling, options->span * rate / 1000, rate / 10};
    struct host host;

    if (!allowed(&settings))
        return 2;
    if (!host_begin(&host, settings, options->policy, &story)) {
        fputs("host: there is not enough memory\n", stderr);
        host_end(&host);
        return 2;
    }
    printf("%u Hz, ceiling %u ms, span %u ms, policy %s\n", rate, options->ceiling, options->span, options->policy->name);
    const double began = processor_time();
    run(&host, played, heard);
    const double took = processor_time() - began;
    tell_not_finite(played);
    tell_not_finite(heard);
    story_end(&host);
    if (options->cost)
        tell_cost(&host, took);
    host_end(&host);
    return 0;
}

int main(int count, char **words)
{
    struct options options = {NULL, NULL, 0, 0, 500, 128, &careful, false};
    struct sound played = {0}, heard = {0};
    int status = 1;

    if (!parse(&options, count, words))
        return usage();
    if (sound_open(&played, options.played, options.played_channel) && sound_open(&heard, options.heard, options.heard_channel) && serve(&played, &heard, options.ceiling))
        status = tell(&options, &played, &heard);
    sound_close(&played);
    sound_close(&heard);
    return status;
}
