/* From nothing to a shifted fix, and a kept run with a correction: what a box does with the library. Prints what it does; examples/run compares. */
#include "sillfeather.h"
#include <stdio.h>
#include <stdlib.h>

static const double DEGREE = 3.14159265358979323846 / 180.0;

/* A box would log the refusal; here the program ends. */
static void done(const char *what, uint32_t result) {
    if (result == SILLFEATHER_DONE) return;
    printf("%s: refused %u step %u\n", what, SILLFEATHER_NUMBER(result), SILLFEATHER_STEP(result));
    exit(1);
}

static void show_geographic(const char *name, const double *tuple) {
    printf("  %-12s %14.9f E %13.9f N %9.4f m\n", name, tuple[0] / DEGREE, tuple[1] / DEGREE, tuple[2]);
}

static void show_kept(size_t fixes, const double *list, const double *results, const double *track) {
    for (size_t i = 0; i < fixes; i++) {
        const double *fix = list + 4 * i, *result = results + 4 * i, *state = track + 4 * i;
        printf("  fix %zu, %.2f: %14.4f %14.4f %14.4f   T after it %8.4f %8.4f %8.4f\n", i, fix[3], result[0], result[1], result[2], state[1], state[2],
               state[3]);
    }
}

/* WGS 84 to ED50, geographic on both sides: to cartesian; the three translations from ED50 to WGS 84 (DMA TR 8350.2, mean for Europe), inverted; from
 * cartesian on the other ellipsoid. */
static size_t wgs84_to_ed50(uint8_t *room, size_t room_len) {
    uint64_t len = 0;
    struct sillfeather_helmert ed50_to_wgs84 = SILLFEATHER_HELMERT_BLANK;
    ed50_to_wgs84.translation[0] = -87.0;
    ed50_to_wgs84.translation[1] = -98.0;
    ed50_to_wgs84.translation[2] = -121.0;
    done("cart", sillfeather_add_cart(room, room_len, &len, 0, SILLFEATHER_WGS84));
    done("Helmert", sillfeather_add_helmert(room, room_len, &len, 1, SILLFEATHER_HELMERT_BLANK_FLAGS, SILLFEATHER_CONVENTION_NONE,
                                            SILLFEATHER_NUMBERS(&ed50_to_wgs84)));
    done("cart", sillfeather_add_cart(room, room_len, &len, 1, SILLFEATHER_INTERNATIONAL_1924));
    return (size_t)len;
}

/* ITRF2014 to ETRF2000 (EUREF Technical Note 1): fourteen parameters at 2010.0, in mm, micro-arcseconds and parts in a million. Without
 * SILLFEATHER_HELMERT_OWN_EPOCH the run is the Rust's running mode, in which T grows at each new time (docs/DIFFERENCES.md). */
static size_t itrf2014_to_etrf2000(uint8_t *room, size_t room_len) {
    uint64_t len = 0;
    struct sillfeather_helmert h = {
        {54.7, 52.2, -74.1}, {0.0, 0.0, 0.0}, {0.1, 0.1, -1.9},      {0.0, 0.0, 0.0}, {1701.0, 10290.0, -16632.0}, {0.0, 0.0, 0.0},
        {81.0, 490.0, -792.0}, {0.0, 0.0, 0.0}, 0.0, 0.00212, 0.0, 0.00011, 2010.0, SILLFEATHER_NOT_GIVEN};
    done("Helmert", sillfeather_add_helmert(room, room_len, &len, 0, SILLFEATHER_HELMERT_MM + SILLFEATHER_HELMERT_UAS, SILLFEATHER_POSITION_VECTOR,
                                            SILLFEATHER_NUMBERS(&h)));
    return (size_t)len;
}

int main(void) {
    uint8_t sheet[SILLFEATHER_SHEET_MAX];
    uint32_t counts[16];

    printf("WGS 84 to ED50\n");
    size_t len = wgs84_to_ed50(sheet, sizeof sheet);
    done("check", sillfeather_check(sheet, len));
    printf("  the sheet is %zu bytes long\n", len);
    double fixes[8] = {2.12955 * DEGREE, 53.809394444 * DEGREE, 73.0, 2024.5, 4.0 * DEGREE, 52.0 * DEGREE, 0.0, 2024.5};
    show_geographic("WGS 84", fixes);
    show_geographic("WGS 84", fixes + 4);
    done("shift", sillfeather_shift(0, sheet, len, fixes, 8, NULL, 0, NULL, 0, counts));
    show_geographic("ED50", fixes);
    show_geographic("ED50", fixes + 4);
    printf("  counted %u %u %u\n", counts[0], counts[1], counts[2]);
    done("shift back", sillfeather_shift(1, sheet, len, fixes, 8, NULL, 0, NULL, 0, counts));
    show_geographic("back", fixes);
    show_geographic("back", fixes + 4);

    printf("ITRF2014 to ETRF2000, a kept run\n");
    len = itrf2014_to_etrf2000(sheet, sizeof sheet);
    printf("  the sheet is %zu bytes long\n", len);
    double list[16] = {3771793.9680, 140253.3420, 5124304.3490, 2024.00, 3771793.9690, 140253.3410, 5124304.3480, 2024.25,
                       3771793.9670, 140253.3430, 5124304.3500, 2024.25, 3771793.9680, 140253.3420, 5124304.3490, 2024.50};
    double results[16], track[16];
    done("keep", sillfeather_keep(0, sheet, len, list, 16, results, 16, track, 16));
    show_kept(4, list, results, track);

    uint64_t redone;
    const double moved[4] = {3771793.9660, 140253.3440, 5124304.3510, 2024.25};
    done("correct", sillfeather_correct(0, sheet, len, list, 16, results, 16, track, 16, 2, moved, &redone));
    printf("fix 2 moved: %llu redone\n", (unsigned long long)redone);
    show_kept(4, list, results, track);

    const double retimed[4] = {3771793.9690, 140253.3410, 5124304.3480, 2024.00};
    done("correct", sillfeather_correct(0, sheet, len, list, 16, results, 16, track, 16, 1, retimed, &redone));
    printf("fix 1 retimed: %llu redone\n", (unsigned long long)redone);
    show_kept(4, list, results, track);

    printf("a sheet cut by a byte: refused %u\n", SILLFEATHER_NUMBER(sillfeather_check(sheet, len - 1)));
    return 0;
}
