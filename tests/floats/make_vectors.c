// Writes pairs of bit patterns, an f64 and what it becomes, as libmpfr rounds it: to nearest, ties to even.
//
//   make_vectors FOLDER      writes FOLDER/narrowing.bin and FOLDER/square_root.bin
//
// A pair is 16 bytes: the f64's pattern and the answer's, little-endian, eight bytes each. The NaN patterns of the answers are those of
// the scope paper. The patterns are picked by a fixed recipe, so that every run writes the same bytes.
#include <mpfr.h>
#include <stdint.h>
#include <stdio.h>
#include <stdlib.h>
#include <string.h>

enum { PAIRS = 24576 };

// The table of first guesses has so many entries, and serves the numbers from 2^52 to 2^54.
enum { ENTRIES = 1024 };

static const uint64_t SIGN = 1ull << 63;
static const uint64_t INFINITE = 0x7ff0000000000000ull;
static const uint64_t DIGITS = (1ull << 52) - 1;

// ---- what libmpfr says

static double value(uint64_t pattern) {
    double d;
    memcpy(&d, &pattern, 8);
    return d;
}

static uint64_t narrowed(uint64_t pattern) {
    mpfr_t x, y;
    mpfr_init2(x, 53);
    mpfr_init2(y, 24);
    mpfr_set_d(x, value(pattern), MPFR_RNDN);
    int ternary = mpfr_set(y, x, MPFR_RNDN);
    mpfr_exp_t least = mpfr_get_emin(), most = mpfr_get_emax();
    mpfr_set_emin(-148);
    mpfr_set_emax(128);
    ternary = mpfr_check_range(y, ternary, MPFR_RNDN);
    mpfr_subnormalize(y, ternary, MPFR_RNDN);
    float f = mpfr_get_flt(y, MPFR_RNDN);
    uint32_t answer = 0x7fc00000;
    if (!mpfr_nan_p(y)) memcpy(&answer, &f, 4);
    mpfr_set_emin(least);
    mpfr_set_emax(most);
    mpfr_clears(x, y, (mpfr_ptr)0);
    return answer;
}

static uint64_t root(uint64_t pattern) {
    mpfr_t x, y;
    mpfr_init2(x, 53);
    mpfr_init2(y, 53);
    mpfr_set_d(x, value(pattern), MPFR_RNDN);
    mpfr_sqrt(y, x, MPFR_RNDN);
    double d = mpfr_get_d(y, MPFR_RNDN);
    uint64_t answer = 0x7ff8000000000000ull;
    if (!mpfr_nan_p(y)) memcpy(&answer, &d, 8);
    mpfr_clears(x, y, (mpfr_ptr)0);
    return answer;
}

// ---- the file under way

static FILE *out;
static uint64_t (*answer_of)(uint64_t);
static int written, most;

static void put(uint64_t n) {
    for (int i = 0; i < 8; i++) fputc((int)(n >> 8 * i & 255), out);
}

static void pair(uint64_t pattern) {
    if (written == most) return;
    put(pattern);
    put(answer_of(pattern));
    written++;
}

// The pattern, the one before it and the one after it.
static void beside(uint64_t pattern) {
    for (int i = -1; i <= 1; i++) pair(pattern + i);
}

// The same with either sign.
static void around(uint64_t size) {
    for (int i = -1; i <= 1; i++) {
        pair((size + i) & ~SIGN);
        pair((size + i) | SIGN);
    }
}

// ---- patterns

static uint64_t state = 0x7472696d6f6c6176ull;

static uint64_t any(void) {
    uint64_t z = state += 0x9e3779b97f4a7c15ull;
    z = (z ^ z >> 30) * 0xbf58476d1ce4e5b9ull;
    z = (z ^ z >> 27) * 0x94d049bb133111ebull;
    return z ^ z >> 31;
}

static uint64_t below(uint64_t n) { return any() % n; }

static uint64_t fields(uint64_t exponent, uint64_t digits) { return exponent << 52 | (digits & DIGITS); }

static void specials(void) {
    around(0);
    around(1);
    around(INFINITE);
    around(fields(1, 0));
    around(fields(2047, 1ull << 51));
    around(fields(1023, 0));
    for (int i = 0; i < 256; i++) pair(fields(2047, any()) | (any() & SIGN));
}

static void narrowing(void) {
    specials();
    // Each exponent's field: both ends, a tie of normal results, a carry, some digits.
    for (uint64_t x = 1; x < 2047; x++) {
        if (x < 860 || 1160 < x) {
            pair(fields(x, any()) | (any() & SIGN));
            continue;
        }
        pair(fields(x, 0));
        pair(fields(x, DIGITS) | SIGN);
        around(fields(x, 1ull << 28));
        around(fields(x, DIGITS << 28));
        around(fields(x, (any() << 29) | 1ull << 28));
        pair(fields(x, any()) | (any() & SIGN));
    }
    // Ties of subnormal results, at each place: 2^-150 and the odd multiples of half a place.
    for (uint64_t x = 873; x < 897; x++) {
        for (int i = 0; i < 24; i++) {
            uint64_t place = 1ull << (925 - x < 52 ? 925 - x : 52);
            uint64_t digits = any() & ~(2 * place - 1);
            around(fields(x, x == 873 ? 0 : digits | place));
        }
    }
    // The largest f32, and the middle between it and the next power of two.
    around(0x47efffffe0000000ull);
    around(0x47effffff0000000ull);
    while (written < PAIRS - 6144) pair(fields(860 + below(300), any()) | (any() & SIGN));
    while (written < PAIRS) pair(any());
}

// Where one entry of the table of first guesses ends and the next begins, at any even exponent; the double of that number, whose exponent has the other
// parity; and the same digits in a subnormal number, at any place.
static void table_ends(void) {
    for (uint64_t i = 0; i <= ENTRIES; i++) {
        uint64_t end = (1024 + 3 * i) << 42;
        double d = (double)end;
        uint64_t pattern;
        memcpy(&pattern, &d, 8);
        pattern = pattern - (1000ull << 52) + (below(900) << 53);
        beside(pattern);
        beside(pattern + (1ull << 52));
        beside((1024 + 3 * i) << below(40));
    }
}

static void rooting(void) {
    specials();
    // Subnormal numbers of each length.
    for (int k = 0; k < 52; k++) {
        around(1ull << k);
        for (int i = 0; i < 24; i++) pair((1ull << k) | (any() & ((1ull << k) - 1)));
    }
    for (uint64_t x = 1; x < 2047; x++) {
        pair(fields(x, 0));
        pair(fields(x, DIGITS));
        pair(fields(x, any()));
    }
    // Squares of whole numbers, whose roots are exact, and their neighbours.
    for (int i = 0; i < 512; i++) {
        double w = (double)(1 + below((1ull << (1 + below(26))) + 1));
        double square = w * w;
        uint64_t pattern;
        memcpy(&pattern, &square, 8);
        around(pattern + ((below(300) * 2) << 52));
    }
    // The squares of the middles between two values, rounded: the root lies closest to a tie there.
    for (int i = 0; i < 1024; i++) {
        mpfr_t middle;
        mpfr_init2(middle, 54);
        mpfr_set_ui(middle, (1ul << 53) | (any() & ((1ul << 53) - 1)) | 1, MPFR_RNDN);
        mpfr_t square;
        mpfr_init2(square, 53);
        mpfr_sqr(square, middle, MPFR_RNDN);
        mpfr_div_2ui(square, square, (unsigned long)below(400), MPFR_RNDN);
        double d = mpfr_get_d(square, MPFR_RNDN);
        uint64_t pattern;
        memcpy(&pattern, &d, 8);
        pair(pattern - 1);
        pair(pattern);
        pair(pattern + 1);
        mpfr_clears(middle, square, (mpfr_ptr)0);
    }
    while (written < PAIRS - 2048) pair(any() & ~SIGN);
    while (written < PAIRS) pair(any());
    table_ends();
}

static void file(const char *folder, const char *name, int pairs, uint64_t (*of)(uint64_t), void (*patterns)(void)) {
    char path[4096];
    snprintf(path, sizeof path, "%s/%s", folder, name);
    out = fopen(path, "wb");
    if (!out) {
        perror(path);
        exit(1);
    }
    answer_of = of;
    written = 0;
    most = pairs;
    patterns();
    if (fclose(out)) {
        perror(path);
        exit(1);
    }
}

int main(int count, char **words) {
    if (count != 2) {
        fprintf(stderr, "usage: make_vectors FOLDER\n");
        return 2;
    }
    file(words[1], "narrowing.bin", PAIRS, narrowed, narrowing);
    file(words[1], "square_root.bin", PAIRS + (ENTRIES + 1) * 9, root, rooting);
    return 0;
}
