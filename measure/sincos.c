/*
 * How exact sine and cosine are: the largest error against MPFR, and where it is.
 *
 *     sincos [POINTS]        points a family, 250000 unless given; eight families
 *
 * Links with an archive that exports sillfeather_sin and sillfeather_cos, and with -lmpfr -lgmp -lm.
 *
 * Two errors are measured: the absolute one, in units of 2^-53, for angles up to 8 (document 01 allows 4 units, that is 2^-51), and the
 * one in units in the last place of the exact value, for every angle in reach. The families are angles spread evenly, angles near the
 * places that are hard (multiples of pi/2, where the result is small; the middle between two steps of the table, where the polynomials
 * reach farthest; 1; the ends of the reach), and angles down to the least number. The points are the same at every run.
 * Ends with status 1 where an error exceeds what docs/KERNELS.md states, or a value leaves -1 to 1.
 */
#define _GNU_SOURCE
#include <math.h>
#include <mpfr.h>
#include <stdint.h>
#include <stdio.h>
#include <stdlib.h>

double sillfeather_sin(double angle);
double sillfeather_cos(double angle);

static const double reach = 1024.0;
static const double stated_absolute = 0.59; /* units of 2^-53, angles up to 8 */
static const double stated_in_last_place = 1.35;

/* ---- points: xorshift, so that every run sees the same */

static uint64_t state = 88172645463325252u;

static uint64_t random_bits(void) {
    state ^= state << 13;
    state ^= state >> 7;
    state ^= state << 17;
    return state;
}

static double random_unit(void) { return (double)(random_bits() >> 11) * 0x1p-53; }

static double random_between(double low, double high) { return low + (high - low) * random_unit(); }

/* a number whose distance from `centre` is about `size`, or less by up to 60 binary places */
static double random_near(double centre, double size) {
    return centre + random_between(-size, size) * ldexp(1.0, -(int)(random_bits() % 61));
}

static double random_multiple(double unit) { return unit * (double)(random_bits() % (uint64_t)(reach / unit + 1.0)); }

static double even_to_8(void) { return random_between(-8.0, 8.0); }
static double even_to_reach(void) { return random_between(-reach, reach); }
static double near_multiples(void) { return random_near(random_multiple(M_PI_2), 0.5); }
static double near_middles(void) { return random_near(random_multiple(M_PI / 32.0) + M_PI / 64.0, 0.001); }
static double near_one(void) { return random_near(1.0, 0.01); }
static double near_the_ends(void) { return reach - random_between(0.0, 1.0) * ldexp(1.0, -(int)(random_bits() % 40)); }
static double tiny(void) { return ldexp(random_between(1.0, 2.0), -(int)(random_bits() % 1023)); }
static double subnormal(void) { return (double)(random_bits() >> 12 >> random_bits() % 52) * 0x1p-1074; }

struct family {
    const char *name;
    double (*point)(void);
};

static const struct family families[] = {
    {"evenly to 8", even_to_8},
    {"evenly to 1024", even_to_reach},
    {"near multiples of pi/2", near_multiples},
    {"between the table's steps", near_middles},
    {"near 1", near_one},
    {"near 1024", near_the_ends},
    {"tiny", tiny},
    {"subnormal", subnormal},
};

/* ---- errors */

struct largest {
    double error;
    double angle;
};

static void keep_largest(struct largest *so_far, double error, double angle) {
    if (!(error <= so_far->error)) {
        so_far->error = error;
        so_far->angle = angle;
    }
}

struct function {
    const char *name;
    double (*ours)(double);
    int (*exact)(mpfr_t, const mpfr_t, mpfr_rnd_t);
    struct largest absolute, in_last_place;
    long outside;
};

/* before the first point */
static const struct function functions[2] = {
    {.name = "sin", .ours = sillfeather_sin, .exact = mpfr_sin},
    {.name = "cos", .ours = sillfeather_cos, .exact = mpfr_cos},
};

static void measure(struct function *function, double angle, mpfr_t exact, mpfr_t difference) {
    mpfr_set_d(difference, angle, MPFR_RNDN);
    function->exact(exact, difference, MPFR_RNDN);
    double value = function->ours(angle);
    if (!(fabs(value) <= 1.0)) function->outside++;
    mpfr_sub_d(difference, exact, value, MPFR_RNDN);
    mpfr_abs(difference, difference, MPFR_RNDN);
    if (fabs(angle) <= 8.0) keep_largest(&function->absolute, ldexp(mpfr_get_d(difference, MPFR_RNDU), 53), angle);
    if (mpfr_zero_p(exact)) return;
    /* the last place of a number in [2^(e-1), 2^e) is 2^(e-53), and none is below 2^-1074 */
    mpfr_exp_t last_place = mpfr_get_exp(exact) - 53;
    if (last_place < -1074) last_place = -1074;
    mpfr_mul_2si(difference, difference, -last_place, MPFR_RNDN);
    keep_largest(&function->in_last_place, mpfr_get_d(difference, MPFR_RNDU), angle);
}

static void report(const char *family, const struct function *function) {
    printf("%-26s %s", family, function->name);
    printf("  2^-53: %.4f", function->absolute.error);
    if (function->absolute.error > 0.0) printf(" at %a", function->absolute.angle);
    printf("  last place: %.4f at %a\n", function->in_last_place.error, function->in_last_place.angle);
}

int main(int count, char **words) {
    long points = count > 1 ? atol(words[1]) : 250000;
    size_t family_count = sizeof families / sizeof families[0];
    struct function whole[2] = {functions[0], functions[1]};
    int sound = 1;
    mpfr_t exact, difference;
    mpfr_init2(exact, 200);
    mpfr_init2(difference, 200);
    for (size_t which = 0; which < family_count; which++) {
        struct function here[2] = {functions[0], functions[1]};
        for (long point = 0; point < points; point++) {
            double angle = families[which].point();
            if (random_bits() & 1) angle = -angle;
            if (fabs(angle) > reach) angle = copysign(reach, angle);
            for (int f = 0; f < 2; f++) measure(&here[f], angle, exact, difference);
        }
        for (int f = 0; f < 2; f++) {
            report(families[which].name, &here[f]);
            keep_largest(&whole[f].absolute, here[f].absolute.error, here[f].absolute.angle);
            keep_largest(&whole[f].in_last_place, here[f].in_last_place.error, here[f].in_last_place.angle);
            whole[f].outside += here[f].outside;
        }
    }
    for (int f = 0; f < 2; f++) {
        report("all", &whole[f]);
        if (whole[f].outside > 0) printf("%s leaves -1 to 1 at %ld points\n", whole[f].name, whole[f].outside);
        sound = sound && whole[f].outside == 0 && whole[f].absolute.error <= stated_absolute &&
                whole[f].in_last_place.error <= stated_in_last_place;
    }
    printf("%zu points, stated: %.2f units of 2^-53 up to 8, %.2f units in the last place: %s\n", family_count * (size_t)points, stated_absolute,
           stated_in_last_place, sound ? "held" : "EXCEEDED");
    mpfr_clear(exact);
    mpfr_clear(difference);
    return sound ? 0 : 1;
}
