/* The slope's divisor beside whole-number arithmetic, for every count of closes from 2 to 65,536: the count, the mean place, and at each place the place, its difference from the mean
   place, the square and the divisor so far, which the proved accumulators hold; at the end n (n^2 - 1) / 12. The closes are any floats: the divisor may not depend on them. */
#include <inttypes.h>
#include <math.h>
#include <stdint.h>
#include <stdio.h>

void mean_more(double mean[2], double y);
void slope_new(const double mean[2], double slope[5]);
void slope_more(double slope[5], double y);

#define MOST 65536

static double closes[MOST];
static uint64_t wrong, sums;

static void look(int right, const char *what, int64_t n, int64_t i) {
    if (right)
        return;
    if (wrong++ < 10)
        printf("n = %" PRId64 ", place %" PRId64 ": %s\n", n, i, what);
}

/* x is the whole number z over 1, 2 or 4, and a zero has no sign: scaling by 2 or 4 loses nothing */
static int is(double x, int64_t z, int64_t over) {
    double whole = x * (double)over;
    return whole == (double)z && (int64_t)whole == z && (z != 0 || !signbit(x));
}

/* one count: the first pass has taken in n closes */
static void one(const double *mean, int64_t n) {
    double slope[5];
    int64_t sum = 0;
    look(is(mean[0], n, 1), "count", n, -1);
    slope_new(mean, slope);
    look(is(slope[1], n - 1, 2), "mean place", n, -1);
    for (int64_t i = 0; i < n; i++) {
        int64_t off = 2 * i - (n - 1);
        double difference = slope[0] - slope[1];
        look(is(slope[0], i, 1), "place", n, i);
        look(is(difference, off, 2), "difference", n, i);
        look(is(difference * difference, off * off, 4), "square", n, i);
        slope_more(slope, closes[i]);
        sum += off * off;
        look(is(slope[4], sum, 4), "divisor", n, i);
        sums++;
    }
    look(3 * sum == n * (n * n - 1), "n (n^2 - 1) / 12", n, n);
    look(is(slope[1], n - 1, 2), "mean place at the end", n, n);
}

int main(void) {
    uint64_t seed = 14;
    double mean[2] = {0.0, -0.0};
    for (int64_t i = 0; i < MOST; i++) {
        seed = seed * 6364136223846793005u + 1442695040888963407u;
        closes[i] = (double)(int64_t)(seed >> 20) / 1024.0;
        if (seed >> 61 == 0)
            closes[i] = seed >> 60 & 1 ? NAN : INFINITY;
    }
    for (int64_t n = 1; n <= MOST; n++) {
        mean_more(mean, closes[n - 1]);
        if (n >= 2)
            one(mean, n);
    }
    printf("%d counts of closes, %" PRIu64 " divisors after each close, %" PRIu64 " wrong\n", MOST - 1, sums, wrong);
    return wrong != 0;
}
