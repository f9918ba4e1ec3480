/* Times natively what a velocity grid costs: the deformation step over columns by a grid beside the
 * same step by lent velocities, the lookup alone, and the check of rules 17 and 18. Places are drawn
 * over the whole grid, so that nearly each lies in another cell than the one before, and then along a
 * track, as a ship's do. Prints times and ratios, and how many answers differ from a plain C of the
 * sequence in docs/FORMAT.md, or from the run with lent velocities that are what was found.
 *
 *     tools/archive sillfeather; tools/archive grid_c
 *     gcc -std=c11 -O2 -ffp-contract=off -Wall bench/grid.c target/native/libgrid_c.a
 *         target/native/libsillfeather.a -lm -o target/native/bench-grid; target/native/bench-grid
 */
#define _POSIX_C_SOURCE 199309L
#include <math.h>
#include <stdint.h>
#include <stdio.h>
#include <stdlib.h>
#include <string.h>
#include <time.h>

uint32_t sillfeather_check_grid(const uint8_t *grid, size_t grid_len);
uint8_t grid_found(const uint8_t *grid, size_t grid_len, double lam, double phi, double *east, double *north, double *up);
void grid_found_block(const uint8_t *grid, size_t grid_len, const double lam[16], const double phi[16], uint8_t marks[16],
                      double east[16], double north[16], double up[16]);
size_t grid_deformation(uint32_t inverse, uint32_t flags, uint32_t ellipsoid, double dt, double epoch, double *x, size_t x_len,
                        double *y, size_t y_len, double *z, size_t z_len, double *t, size_t t_len, const uint8_t *grid, size_t grid_len);
size_t lent_deformation(uint32_t inverse, uint32_t flags, uint32_t ellipsoid, double dt, double epoch, double *x, size_t x_len,
                        double *y, size_t y_len, double *z, size_t z_len, double *t, size_t t_len, const double *velocities,
                        size_t velocities_len, const uint8_t *marks, size_t marks_len);

enum { N = 2048, ROWS = 64, COLUMNS = 64, LENGTH = 40 + 24 * ROWS * COLUMNS, PASSES = 400 };

struct axis { double start, step; int count; };
static const struct axis rows = {-0.5, 0.01, ROWS}, columns = {0.3, 0.012, COLUMNS};

static uint8_t grid[LENGTH], marks[N];
static double lam[N], phi[N], east[N], north[N], up[N], lent[3 * N];
static double start[4][N], by_grid[4][N], by_lent[4][N];

static double now(void)
{
    struct timespec t;
    clock_gettime(CLOCK_MONOTONIC, &t);
    return t.tv_sec * 1e9 + t.tv_nsec;
}

static void least(double *best, double t) { if (t < *best) *best = t; }

static double drawn(double low, double high) { return low + (high - low) * rand() / RAND_MAX; }

static double spacings(struct axis a, double x)
{
    double far = a.count - 1, last = a.start + far * a.step, q = (x - a.start) / a.step;
    return x < last && q < far ? q : far;
}

static uint8_t plain(double lon, double lat, double v[3])
{
    double n = rows.start + (rows.count - 1) * rows.step, e = columns.start + (columns.count - 1) * columns.step;
    if (!(rows.start <= lat && lat <= n && columns.start <= lon && lon <= e)) {
        v[0] = v[1] = v[2] = NAN;
        return 0;
    }
    double s = spacings(rows, lat), t = spacings(columns, lon), sw[6], nw[6];
    int i = (int)s < ROWS - 2 ? (int)s : ROWS - 2, j = (int)t < COLUMNS - 2 ? (int)t : COLUMNS - 2;
    double f = s - i, h = t - j, a = 1 - f, c = 1 - h, w[4] = {a * c, a * h, f * c, f * h};
    memcpy(sw, grid + 40 + 24 * (i * COLUMNS + j), 48);
    memcpy(nw, grid + 40 + 24 * ((i + 1) * COLUMNS + j), 48);
    for (int q = 0; q < 3; q++) v[q] = w[0] * sw[q] + w[1] * sw[q + 3] + w[2] * nw[q] + w[3] * nw[q + 3];
    return 1;
}

static void fill(int track)
{
    uint32_t counts[2] = {ROWS, COLUMNS};
    double head[4] = {rows.start, columns.start, rows.step, columns.step};
    srand(1);
    memcpy(grid, counts, 8);
    memcpy(grid + 8, head, 32);
    for (int k = 0; k < 3 * ROWS * COLUMNS; k++) {
        double v = drawn(-20, 20);
        memcpy(grid + 40 + 8 * k, &v, 8);
    }
    for (int k = 0; k < N; k++) {
        phi[k] = track ? -0.45 + 0.5 * k / N : drawn(-0.5, 0.13);
        lam[k] = track ? 0.35 + 0.6 * k / N : drawn(0.3, 1.056);
        double e2 = 0.00669438002290, n = 6378137 / sqrt(1 - e2 * sin(phi[k]) * sin(phi[k]));
        start[0][k] = n * cos(phi[k]) * cos(lam[k]);
        start[1][k] = n * cos(phi[k]) * sin(lam[k]);
        start[2][k] = n * (1 - e2) * sin(phi[k]);
        start[3][k] = 2010.5;
    }
}

static void found_all(void)
{
    for (int k = 0; k < N; k += 16)
        grid_found_block(grid, LENGTH, lam + k, phi + k, marks + k, east + k, north + k, up + k);
}

static size_t run_grid(void)
{
    double(*c)[N] = by_grid;
    return grid_deformation(0, 0, 1, NAN, 2000.0, c[0], N, c[1], N, c[2], N, c[3], N, grid, LENGTH);
}

static size_t run_lent(void)
{
    double(*c)[N] = by_lent;
    return lent_deformation(0, 0, 1, NAN, 2000.0, c[0], N, c[1], N, c[2], N, c[3], N, lent, 3 * N, marks, N);
}

static long measure(const char *name)
{
    long differ = 0, present = 0;
    found_all();
    for (int k = 0; k < N; k++) {
        double a[3], b[3], c[3] = {east[k], north[k], up[k]};
        uint8_t m = plain(lam[k], phi[k], a), o = grid_found(grid, LENGTH, lam[k], phi[k], b, b + 1, b + 2);
        differ += m != o || m != marks[k] || memcmp(a, b, sizeof a) || memcmp(a, c, sizeof a);
        present += m;
        memcpy(lent + 3 * k, c, sizeof c);
    }
    double block = 1e18, one = 1e18, c = 1e18, by = 1e18, with = 1e18, v[3];
    volatile size_t z = 0;
    for (int pass = 0; pass < PASSES; pass++) {
        double t = now();
        found_all();
        least(&block, now() - t);
        t = now();
        for (int k = 0; k < N; k++) z += grid_found(grid, LENGTH, lam[k], phi[k], v, v + 1, v + 2);
        least(&one, now() - t);
        t = now();
        for (int k = 0; k < N; k++) z += plain(lam[k], phi[k], v);
        least(&c, now() - t);
        memcpy(by_grid, start, sizeof start);
        t = now();
        z += run_grid();
        least(&by, now() - t);
        memcpy(by_lent, start, sizeof start);
        t = now();
        z += run_lent();
        least(&with, now() - t);
    }
    printf("%s: %ld of %d present, %ld differ\n", name, present, N, differ);
    printf("  ns a place: sixteen at once %.1f, one at a time %.1f, plain C %.1f\n", block / N, one / N, c / N);
    printf("  deformation, ns a tuple: by a grid %.1f, by lent velocities %.1f, ratio %.2f\n", by / N, with / N, by / with);
    return differ;
}

int main(void)
{
    double check = 1e18;
    volatile unsigned z = 0;
    fill(0);
    long differ = measure("all over the grid");
    fill(1);
    differ += measure("along a track");
    for (int pass = 0; pass < PASSES; pass++) {
        double t = now();
        z += sillfeather_check_grid(grid, LENGTH);
        least(&check, now() - t);
    }
    printf("rules 17 and 18 of %d by %d: %.1f us\n", ROWS, COLUMNS, check / 1e3);
    return differ != 0;
}
