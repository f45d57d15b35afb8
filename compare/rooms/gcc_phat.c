/* The textbook's GCC-PHAT over two sound files: windows of 4 s, one after the other, delays of 0 to 500 ms. Prints at the end of each the time in s and the delay in samples, or none where the peak is
 * less than ten times the mean, which is the bar of the proved peak rule too. 16,000 Hz. */
#include <complex.h>
#include <fftw3.h>
#include <math.h>
#include <sndfile.h>
#include <stdio.h>
#include <stdlib.h>

#define RATE 16000
#define WINDOW (4 * RATE)
#define LENGTH (2 * WINDOW)
#define BINS (LENGTH / 2 + 1)
#define LONGEST (RATE / 2)

static float *side;
static fftwf_complex *played_bins, *heard_bins;
static fftwf_plan forward_played, forward_heard, back;

static int next(SNDFILE *file)
{
    for (int i = WINDOW; i < LENGTH; i++)
        side[i] = 0;
    return sf_read_float(file, side, WINDOW) == WINDOW;
}

static void tell(double seconds)
{
    double total = 0, peak = 0;
    int at = 0;

    for (int i = 0; i <= LONGEST; i++) {
        const double height = fabs(side[i]);
        total += height;
        if (height > peak) {
            peak = height;
            at = i;
        }
    }
    if (peak < 10 * total / (LONGEST + 1))
        printf("%.3f none\n", seconds);
    else
        printf("%.3f %d\n", seconds, at);
}

int main(int count, char **words)
{
    SF_INFO info[2] = {{0}, {0}};
    SNDFILE *files[2];

    if (count != 3)
        return 2;
    for (int i = 0; i < 2; i++)
        if (!(files[i] = sf_open(words[i + 1], SFM_READ, &info[i]))) {
            fprintf(stderr, "gcc_phat: %s: %s\n", words[i + 1], sf_strerror(NULL));
            return 1;
        }
    side = fftwf_alloc_real(LENGTH);
    played_bins = fftwf_alloc_complex(BINS);
    heard_bins = fftwf_alloc_complex(BINS);
    forward_played = fftwf_plan_dft_r2c_1d(LENGTH, side, played_bins, FFTW_ESTIMATE);
    forward_heard = fftwf_plan_dft_r2c_1d(LENGTH, side, heard_bins, FFTW_ESTIMATE);
    back = fftwf_plan_dft_c2r_1d(LENGTH, heard_bins, side, FFTW_ESTIMATE);
    for (int number = 1;; number++) {
        if (!next(files[0]))
            break;
        fftwf_execute(forward_played);
        if (!next(files[1]))
            break;
        fftwf_execute(forward_heard);
        for (int i = 0; i < BINS; i++) {
            const float complex z = heard_bins[i] * conjf(played_bins[i]);
            heard_bins[i] = z / (cabsf(z) + 1e-12f);
        }
        fftwf_execute(back);
        tell(4.0 * number);
    }
    return 0;
}
