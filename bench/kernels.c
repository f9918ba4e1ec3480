/*
 * How fast the kernels are beside the C library's, in one run, interleaved: nanoseconds a call, and theirs over ours: above 1 ours are ahead.
 *
 * Links with an archive that exports the kernels, and with -lm. The arguments lie in arrays, so that calls may overlap as they do in a loop over
 * tuples; a time is the best of the passes over all arguments. The machine's own square root is reached as the C library's sqrt. No limit is tested:
 * a time depends on the machine, and only the ratios of one run say something.
 */
#define _GNU_SOURCE
#include <math.h>
#include <stdint.h>
#include <stdio.h>
#include <stdlib.h>
#include <time.h>

double sillfeather_sqrt(double x);
double sillfeather_sin(double x);
double sillfeather_cos(double x);
void sillfeather_sin_cos(double x, double *s, double *c);
double sillfeather_atan2(double y, double x);
double sillfeather_hypot(double x, double y);

enum { arguments = 4096, passes = 200 };

static double our_sqrt(double x, double y) { return (void)y, sillfeather_sqrt(x); }
static double library_sqrt(double x, double y) { return (void)y, sqrt(x); }
static double our_sin(double x, double y) { return (void)y, sillfeather_sin(x); }
static double library_sin(double x, double y) { return (void)y, sin(x); }
static double our_cos(double x, double y) { return (void)y, sillfeather_cos(x); }
static double library_cos(double x, double y) { return (void)y, cos(x); }
static double our_pair(double x, double y) {
    double s, c;
    (void)y;
    sillfeather_sin_cos(x, &s, &c);
    return s + c;
}
static double library_pair(double x, double y) {
    double s, c;
    (void)y;
    sincos(x, &s, &c);
    return s + c;
}

static uint64_t state = 88172645463325252u;

static double random_between(double low, double high) {
    state ^= state << 13;
    state ^= state >> 7;
    state ^= state << 17;
    return low + (high - low) * (double)(state >> 11) * 0x1p-53;
}

struct row {
    const char *name;
    double (*ours)(double, double);
    double (*library)(double, double);
    double low, high;
};

static const struct row rows[] = {
    {"sqrt, 0.99 to 1", our_sqrt, library_sqrt, 0.99, 1.0},
    {"sqrt, 0 to 1e14", our_sqrt, library_sqrt, 0.0, 1e14},
    {"sin and cos, to pi", our_pair, library_pair, -M_PI, M_PI},
    {"sin and cos, to 1024", our_pair, library_pair, -1024.0, 1024.0},
    {"sin, to pi", our_sin, library_sin, -M_PI, M_PI},
    {"cos, to pi", our_cos, library_cos, -M_PI, M_PI},
    {"atan2, metres", sillfeather_atan2, atan2, -6.4e6, 6.4e6},
    {"hypot, metres", sillfeather_hypot, hypot, -6.4e6, 6.4e6},
};

static double now(void) {
    struct timespec t;
    clock_gettime(CLOCK_MONOTONIC, &t);
    return (double)t.tv_sec * 1e9 + (double)t.tv_nsec;
}

static volatile double kept;

static double pass(double (*f)(double, double), const double *x, const double *y) {
    double sum = 0.0, began = now();
    for (int i = 0; i < arguments; i++) sum += f(x[i], y[i]);
    kept = sum;
    return (now() - began) / arguments;
}

int main(void) {
    static double x[arguments], y[arguments];
    printf("%-22s %8s %8s %6s\n", "", "C's, ns", "ours, ns", "ratio");
    for (size_t r = 0; r < sizeof rows / sizeof *rows; r++) {
        double ours = INFINITY, library = INFINITY;
        for (int i = 0; i < arguments; i++) x[i] = random_between(rows[r].low, rows[r].high), y[i] = random_between(rows[r].low, rows[r].high);
        for (int p = 0; p < passes; p++) {
            ours = fmin(ours, pass(rows[r].ours, x, y));
            library = fmin(library, pass(rows[r].library, x, y));
        }
        printf("%-22s %8.2f %8.2f %6.2f\n", rows[r].name, library, ours, library / ours);
    }
    return 0;
}
