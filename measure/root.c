// The square root against the machine's own, which is correctly rounded: every bit, over the hard places.
//
// Links against an archive that exports `sillfeather_sqrt`, and -lm:
//     cc -O2 measure/root.c ARCHIVE -lm -o root && ./root 100000
// The argument is a tenth of the number of points of each class. That the root is correctly rounded is proved; this runs what was compiled.
#include <math.h>
#include <stdint.h>
#include <stdio.h>
#include <stdlib.h>
#include <string.h>

double sillfeather_sqrt(double x);

static uint64_t state = 88172645463325252u;

static uint64_t random_bits(void) {
    state ^= state << 13;
    state ^= state >> 7;
    state ^= state << 17;
    return state * 2685821657736338717u;
}

static double from_bits(uint64_t b) {
    double x;
    memcpy(&x, &b, 8);
    return x;
}

static uint64_t to_bits(double x) {
    uint64_t b;
    memcpy(&b, &x, 8);
    return isnan(x) ? 0x7ff8000000000000u : b;
}

enum { ANY, SUBNORMAL, UNIT, NEAR_SQUARES, CLASSES };
static const char *const names[] = {"any bits", "subnormal", "1/2 to 2", "near squares"};

static double point(int class) {
    uint64_t b = random_bits();
    double q = (double)(b >> 11);
    switch (class) {
    case ANY: return from_bits(b);
    case SUBNORMAL: return from_bits(b >> (12 + random_bits() % 52));
    case UNIT: return from_bits((b >> 12 | 0x3fe0000000000000u) + (b & 1) * 0x10000000000000u);
    default: return from_bits(to_bits(q * q) + random_bits() % 5 - 2);
    }
}

int main(int count, char **words) {
    long points = count > 1 ? 10 * atol(words[1]) : 1000000, differ = 0;
    for (int class = 0; class < CLASSES; class++)
        for (long i = 0; i < points; i++) {
            double x = point(class), ours = sillfeather_sqrt(x), machine = sqrt(x);
            if (to_bits(ours) == to_bits(machine)) continue;
            if (!differ++) printf("sqrt(%a), %s: ours %a, the machine's %a\n", x, names[class], ours, machine);
        }
    printf("square root: %ld points, %ld differ from the machine's own in a bit\n", points * CLASSES, differ);
    return differ != 0;
}
