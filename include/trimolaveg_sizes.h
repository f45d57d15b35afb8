/*
 * Gives the length of every list of trimolaveg.h as a constant expression, for static memory and for #if. Each is what the call of the same name in small letters returns, 0
 * outside the table included; tests/built/sizes.sh compares the two at every rate, ceiling and span. Arguments must be whole numbers of 0 or more, and are evaluated more than once.
 *
 *   static float envelope[TMV_SCAN_ENVELOPE_LEN(48000, 500)];
 *
 * docs/MEMORY.md lists the bytes at the usual settings.
 */
#ifndef TRIMOLAVEG_SIZES_H
#define TRIMOLAVEG_SIZES_H

#include "trimolaveg.h"

/* Turns milliseconds into samples or bins at a rate, rounded down, but at least 1. */
#define TMV_AT_LEAST_1(n) ((n) == 0UL ? 1UL : (n))
#define TMV_PER_MS(ms, rate) TMV_AT_LEAST_1((ms) * 1UL * (rate) / 1000UL)

/* ---- the coarse scan (docs/SPECIFICATION.md, section 6) */

#define TMV_RATE_ALLOWED(rate) ((rate) >= 8000UL && (rate) <= 192000UL)
#define TMV_CEILING_ALLOWED(ceiling) ((ceiling) >= 1UL && (ceiling) <= 4000UL)
#define TMV_SCAN_LEN(rate, ceiling, len) (TMV_RATE_ALLOWED(rate) && TMV_CEILING_ALLOWED(ceiling) ? (len) : 0UL)

#define TMV_SCAN_BIN_SAMPLES(rate) TMV_AT_LEAST_1(((rate) + 500UL) / 1000UL)
#define TMV_SCAN_BIN_RATE(rate) ((rate) / TMV_SCAN_BIN_SAMPLES(rate))
#define TMV_SCAN_SPAN(rate, ceiling) TMV_PER_MS(ceiling, TMV_SCAN_BIN_RATE(rate))
#define TMV_SCAN_FRAME(rate) TMV_PER_MS(256UL, TMV_SCAN_BIN_RATE(rate))
#define TMV_SCAN_SLACK 4000UL

#define TMV_SCAN_ENVELOPE_LEN(rate, ceiling) TMV_SCAN_LEN(rate, ceiling, TMV_SCAN_FRAME(rate) + TMV_SCAN_SPAN(rate, ceiling) + TMV_SCAN_SLACK)
#define TMV_SCAN_LEVELS_LEN(rate, ceiling) TMV_SCAN_LEN(rate, ceiling, TMV_SCAN_FRAME(rate))
#define TMV_SCAN_WINDOW_LEN(rate, ceiling) TMV_SCAN_LEN(rate, ceiling, TMV_SCAN_FRAME(rate) + TMV_SCAN_SPAN(rate, ceiling))
#define TMV_SCAN_PREFIX_LEN(rate, ceiling) TMV_SCAN_LEN(rate, ceiling, TMV_SCAN_FRAME(rate) + TMV_SCAN_SPAN(rate, ceiling) + 1UL)
#define TMV_SCAN_LAGS_LEN(rate, ceiling) TMV_SCAN_LEN(rate, ceiling, TMV_SCAN_SPAN(rate, ceiling) + 1UL)

/* The largest value of each over all rates and ceilings: bins are closest together at 8,499 Hz. A buffer of this length serves every setting: lend its first elements. */
#define TMV_SCAN_ENVELOPE_MOST TMV_SCAN_ENVELOPE_LEN(8499UL, 4000UL)
#define TMV_SCAN_LEVELS_MOST TMV_SCAN_LEVELS_LEN(8499UL, 4000UL)
#define TMV_SCAN_WINDOW_MOST TMV_SCAN_WINDOW_LEN(8499UL, 4000UL)
#define TMV_SCAN_PREFIX_MOST TMV_SCAN_PREFIX_LEN(8499UL, 4000UL)
#define TMV_SCAN_LAGS_MOST TMV_SCAN_LAGS_LEN(8499UL, 4000UL)

/* The bytes of the lists: of those that must be kept between calls (lag sums, envelope, levels), and of those that one scoring needs (both prefixes, scores, window). The
 * state takes another 8 * TMV_SCAN_WORDS bytes. */
#define TMV_SCAN_KEPT_BYTES(rate, ceiling) (8UL * TMV_SCAN_LAGS_LEN(rate, ceiling) + 4UL * TMV_SCAN_ENVELOPE_LEN(rate, ceiling) + 4UL * TMV_SCAN_LEVELS_LEN(rate, ceiling))
#define TMV_SCAN_SCRATCH_BYTES(rate, ceiling) (16UL * TMV_SCAN_PREFIX_LEN(rate, ceiling) + 8UL * TMV_SCAN_LAGS_LEN(rate, ceiling) + 4UL * TMV_SCAN_WINDOW_LEN(rate, ceiling))

/* The most products that the lag sums of one frame can take: tmv_scan_observe tells how many it was (docs/WORK.md has this at the usual settings). */
#define TMV_SCAN_MOST_PRODUCTS(rate, ceiling) (TMV_SCAN_LAGS_LEN(rate, ceiling) * TMV_SCAN_LEVELS_LEN(rate, ceiling))

/* ---- the panel, a narrow profile of the scan. Only the envelope has another length. The state has TMV_SCAN_WORDS words. */

#define TMV_PANEL_ALLOWED(rate, ceiling) (((rate) == 8000UL || (rate) == 16000UL) && (ceiling) >= 8UL && (ceiling) <= 320UL)
#define TMV_PANEL_LEN(rate, ceiling, len) (TMV_PANEL_ALLOWED(rate, ceiling) ? (len) : 0UL)
#define TMV_PANEL_SLACK 512UL

#define TMV_PANEL_ENVELOPE_LEN(rate, ceiling) TMV_PANEL_LEN(rate, ceiling, TMV_SCAN_FRAME(rate) + TMV_SCAN_SPAN(rate, ceiling) + TMV_PANEL_SLACK)
#define TMV_PANEL_ENVELOPE_MOST TMV_PANEL_ENVELOPE_LEN(16000UL, 320UL)

#define TMV_PANEL_KEPT_BYTES(rate, ceiling) TMV_PANEL_LEN(rate, ceiling, 8UL * TMV_SCAN_LAGS_LEN(rate, ceiling) + 4UL * TMV_PANEL_ENVELOPE_LEN(rate, ceiling) + 4UL * TMV_SCAN_LEVELS_LEN(rate, ceiling))
#define TMV_PANEL_SCRATCH_BYTES(rate, ceiling) TMV_PANEL_LEN(rate, ceiling, TMV_SCAN_SCRATCH_BYTES(rate, ceiling))

/* State, kept lists and scratch at the largest setting. */
#define TMV_PANEL_BYTES_MOST (8UL * TMV_SCAN_WORDS + TMV_PANEL_KEPT_BYTES(16000UL, 320UL) + TMV_PANEL_SCRATCH_BYTES(16000UL, 320UL))

/* ---- the pair: one envelope, and levels and lag sums for each of two channels. The state takes another 8 * TMV_PAIR_WORDS bytes. Scratch is one scan's. */

#define TMV_PAIR_KEPT_BYTES(rate, ceiling) (16UL * TMV_SCAN_LAGS_LEN(rate, ceiling) + 4UL * TMV_SCAN_ENVELOPE_LEN(rate, ceiling) + 8UL * TMV_SCAN_LEVELS_LEN(rate, ceiling))
#define TMV_PAIR_SCRATCH_BYTES(rate, ceiling) TMV_SCAN_SCRATCH_BYTES(rate, ceiling)

/* ---- the fine stage (docs/SPECIFICATION.md, section 9) */

#define TMV_SPAN_ALLOWED(span) ((span) >= 1UL && (span) <= 32768UL)
#define TMV_FINE_LEN(span, len) (TMV_SPAN_ALLOWED(span) ? (len) : 0UL)

/* The transform length is the smallest power of two that is at least twice the span, and at least 256. */
#define TMV_FINE_TRANSFORM_LEN(span)                                                                                              \
    TMV_FINE_LEN(span, (span) <= 128UL ? 256UL : (span) <= 256UL ? 512UL : (span) <= 512UL ? 1024UL : (span) <= 1024UL ? 2048UL : \
                       (span) <= 2048UL ? 4096UL : (span) <= 4096UL ? 8192UL : (span) <= 8192UL ? 16384UL : (span) <= 16384UL ? 32768UL : 65536UL)
#define TMV_FINE_FRAME_LEN(span) TMV_FINE_LEN(span, TMV_FINE_TRANSFORM_LEN(span) - (span))
#define TMV_FINE_WINDOW_LEN(span) TMV_FINE_TRANSFORM_LEN(span)
#define TMV_FINE_CORRELATION_LEN(span) TMV_FINE_LEN(span, (span) + 1UL)

/* The largest value of each over all spans: a frame is longest where the span just passes a power of two and the transform doubles. */
#define TMV_FINE_FRAME_MOST TMV_FINE_FRAME_LEN(16385UL)
#define TMV_FINE_WINDOW_MOST TMV_FINE_WINDOW_LEN(32768UL)
#define TMV_FINE_CORRELATION_MOST TMV_FINE_CORRELATION_LEN(32768UL)

/* The bytes of the lists: near frame and retained frame are kept, far window and correlation are scratch. The host provides the transform's own memory. */
#define TMV_FINE_KEPT_BYTES(span) (8UL * TMV_FINE_FRAME_LEN(span))
#define TMV_FINE_SCRATCH_BYTES(span) (4UL * TMV_FINE_WINDOW_LEN(span) + 4UL * TMV_FINE_CORRELATION_LEN(span))

#endif
