// How far atan2 and hypot are from the truth, beside the C library's.
//
// Links against an archive that exports `sillfeather_atan2` and `sillfeather_hypot`, and MPFR:
//     cc -O2 measure/atan2_hypot.c ARCHIVE -lmpfr -lgmp -lm -o atan2_hypot && ./atan2_hypot 100000
// The argument is the number of points of each class. Prints the largest error of each class in units in the last place, and where the
// largest of all is; then how many special cases differ from the C library's bits. Ends with status 1 where one does, or where an error exceeds
// what docs/KERNELS.md states.
#include <math.h>
#include <mpfr.h>
#include <stdint.h>
#include <stdio.h>
#include <stdlib.h>
#include <string.h>

double sillfeather_atan2(double y, double x);
double sillfeather_hypot(double x, double y);

static uint64_t state = 88172645463325252u;

static uint64_t random_bits(void) {
    state ^= state << 13;
    state ^= state >> 7;
    state ^= state << 17;
    return state * 2685821657736338717u;
}

static double from_bits(uint64_t b) {
    double x;
    memcpy(&x, &b, 8);
    return x;
}

static uint64_t to_bits(double x) {
    uint64_t b;
    memcpy(&b, &x, 8);
    return b;
}

static double unit(void) { return (random_bits() >> 11) * 0x1p-53; }

static double octave(int low, int count) { return ldexp(1 + unit(), low + (int)(random_bits() % count)); }

static double any_finite(void) {
    double x = from_bits(random_bits() & 0x7fffffffffffffffu);
    return x < INFINITY ? x : 1;
}

enum { UNIT, METRES, OCTAVES, DIAGONAL, ANY_BITS, SUBNORMAL, SHALLOW, CELL_EDGES, HUGE_PARTS, TINY_PARTS, INTEGERS, NEAR_AXES, NEAR_ONE, CLASSES };

static const char *const class_names[CLASSES] = {
    "unit square", "metres", "2^-20 to 2^20", "near the diagonal", "any bits", "subnormal", "quotient below .14",
    "cell edges", "huge parts", "tiny parts", "small integers", "near the axes", "near 1",
};

// quotients at which a cell, or the binary digit of a part, changes
static const double edges[] = {1, .875, .8, .75, 2 / 3., .625, 4 / 7., .5, .4375, .4, .375, 1 / 3., .25, .21875, .2, .1875, .125, .109375, .1, .09375, .078125, .0625};

static void point(int class, double *first, double *second) {
    double x, y;
    switch (class) {
    case UNIT: x = unit(); y = unit(); break;
    case METRES: x = unit() * 6.4e6; y = unit() * 6.4e6; break;
    case OCTAVES: x = octave(-20, 40); y = octave(-20, 40); break;
    case DIAGONAL: x = octave(0, 3); y = x * (1 + ldexp(unit() - 0.5, -(int)(random_bits() % 52))); break;
    case ANY_BITS: x = any_finite(); y = any_finite(); break;
    case SUBNORMAL: x = from_bits(random_bits() >> (11 + random_bits() % 52)); y = from_bits(random_bits() >> (11 + random_bits() % 52)); break;
    case SHALLOW: x = 1 + unit(); y = x * unit() * 0.14; break;
    case CELL_EDGES: x = 1 + unit(); y = x * edges[random_bits() % (sizeof edges / 8)] * (1 + ldexp(unit() - 0.5, -(int)(random_bits() % 50))); break;
    case HUGE_PARTS: x = octave(1000, 23); y = octave(1000, 23); break;
    case TINY_PARTS: x = octave(-1022, 60); y = octave(-1022, 60); break;
    case INTEGERS: x = 1 + random_bits() % 3000; y = 1 + random_bits() % 3000; break;
    case NEAR_AXES: x = 1 + unit(); y = ldexp(x * (1 + unit()), -(int)(random_bits() % 60)); break;
    default: x = 1 + ldexp(unit() - 0.5, -(int)(random_bits() % 52)); y = ldexp(1 + unit(), -(int)(random_bits() % 30)); break;
    }
    if (random_bits() & 1) { double t = x; x = y; y = t; }
    if (random_bits() & 1) x = -x;
    if (random_bits() & 1) y = -y;
    *first = x;
    *second = y;
}

// the error of `got` against the exact value, in units in the last place of that value
static double units(double got, mpfr_t exact, mpfr_t scratch) {
    if (isinf(got)) return fabs(mpfr_get_d(exact, MPFR_RNDN)) == INFINITY ? 0 : INFINITY;
    if (mpfr_zero_p(exact)) return got == 0 ? 0 : INFINITY;
    long e = mpfr_get_exp(exact) - 53;
    if (e < -1074) e = -1074;
    mpfr_sub_d(scratch, exact, got, MPFR_RNDN);
    mpfr_abs(scratch, scratch, MPFR_RNDN);
    mpfr_mul_2si(scratch, scratch, -e, MPFR_RNDN);
    return mpfr_get_d(scratch, MPFR_RNDU);
}

struct worst { double error, x, y; };

static void note(struct worst *w, double error, double x, double y) {
    if (!(error <= w->error)) *w = (struct worst){error, x, y};
}

static int same(double a, double b) { return (isnan(a) && isnan(b)) || to_bits(a) == to_bits(b); }

static const double stated_angle = 0.80, stated_length = 0.98; // units in the last place

int main(int count, char **words) {
    long points = count > 1 ? atol(words[1]) : 100000;
    mpfr_t x, y, exact, scratch;
    mpfr_init2(x, 53);
    mpfr_init2(y, 53);
    mpfr_init2(exact, 300);
    mpfr_init2(scratch, 300);
    struct worst angle = {0}, angle_absolute = {0}, length = {0}, c_angle = {0}, c_length = {0};
    printf("%-20s %8s %8s %8s %8s  (units in the last place)\n", "class", "atan2", "C's", "hypot", "C's");
    for (int class = 0; class < CLASSES; class++) {
        struct worst in[4] = {{0}};
        for (long i = 0; i < points; i++) {
            double a, b;
            point(class, &a, &b);
            mpfr_set_d(x, a, MPFR_RNDN);
            mpfr_set_d(y, b, MPFR_RNDN);
            mpfr_atan2(exact, y, x, MPFR_RNDN);
            double got = sillfeather_atan2(b, a);
            note(&in[0], units(got, exact, scratch), a, b);
            note(&in[1], units(atan2(b, a), exact, scratch), a, b);
            mpfr_sub_d(scratch, exact, got, MPFR_RNDN);
            note(&angle_absolute, fabs(mpfr_get_d(scratch, MPFR_RNDA)), a, b);
            mpfr_hypot(exact, x, y, MPFR_RNDN);
            note(&in[2], units(sillfeather_hypot(a, b), exact, scratch), a, b);
            note(&in[3], units(hypot(a, b), exact, scratch), a, b);
        }
        printf("%-20s %8.4f %8.4f %8.4f %8.4f\n", class_names[class], in[0].error, in[1].error, in[2].error, in[3].error);
        note(&angle, in[0].error, in[0].x, in[0].y);
        note(&c_angle, in[1].error, 0, 0);
        note(&length, in[2].error, in[2].x, in[2].y);
        note(&c_length, in[3].error, 0, 0);
    }
    printf("%ld points each\n", points * CLASSES);
    printf("atan2: largest error %.4f units at y = %a, x = %a; absolute 2^%.2f at y = %a, x = %a (C library: %.4f units)\n",
           angle.error, angle.y, angle.x, log2(angle_absolute.error), angle_absolute.y, angle_absolute.x, c_angle.error);
    printf("hypot: largest error %.4f units at x = %a, y = %a (C library: %.4f units)\n", length.error, length.x, length.y, c_length.error);

    const double special[] = {0.0, 1.0, 0x1p-1074, 0x1p-1022, 0x1.fffffffffffffp1023, INFINITY, NAN};
    int cases = 0, angles_differ = 0, lengths_differ = 0;
    for (int i = 0; i < 14; i++)
        for (int j = 0; j < 14; j++) {
            double a = i & 1 ? -special[i / 2] : special[i / 2], b = j & 1 ? -special[j / 2] : special[j / 2];
            cases++;
            if (!same(sillfeather_atan2(a, b), atan2(a, b))) { angles_differ++; printf("atan2(%a, %a): ours %a, C's %a\n", a, b, sillfeather_atan2(a, b), atan2(a, b)); }
            if (!same(sillfeather_hypot(a, b), hypot(a, b))) { lengths_differ++; printf("hypot(%a, %a): ours %a, C's %a\n", a, b, sillfeather_hypot(a, b), hypot(a, b)); }
        }
    printf("special cases: %d; atan2 differs from the C library's bits in %d, hypot in %d\n", cases, angles_differ, lengths_differ);

    int held = !angles_differ && !lengths_differ && angle.error <= stated_angle && angle_absolute.error <= 0x1p-50 && length.error <= stated_length;
    printf("stated: atan2 %.2f units, hypot %.2f units: %s\n", stated_angle, stated_length, held ? "held" : "NOT HELD");
    return !held;
}
