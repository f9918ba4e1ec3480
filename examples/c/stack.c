/* Tests how much stack each call takes: a thread runs it on a stack that was filled before, and
 * what is no longer filled was used. A box plans with the limits, which include/sillfeather.h
 * states; the figures are the machine's and the compiler's. The last line is 'N passed, M failed'. */
#define _GNU_SOURCE
#include "sillfeather.h"
#include <pthread.h>
#include <stdio.h>
#include <stdlib.h>
#include <string.h>

enum { STACK = 1 << 20, FILL = 0xa5, ROWS = SILLFEATHER_TUPLES_MAX, NUMBERS = 4 * ROWS };

/* every kind; one exact Helmert step, running and in own-epoch mode; one that the chart profile lets through */
static uint8_t all_kinds[SILLFEATHER_SHEET_MAX], helmerts[2][SILLFEATHER_SHEET_MAX], chart[SILLFEATHER_SHEET_MAX], marks[ROWS];
static uint64_t all_kinds_len, helmerts_len[2], chart_len;
static double list[NUMBERS], results[NUMBERS], track[NUMBERS], velocities[3 * ROWS];
static double columns[3][4][ROWS];
static uint8_t grid[SILLFEATHER_GRID_MAX]; /* 64 by 64, from the equator and longitude 0 over the poles */
static struct sillfeather_helmert helmert = SILLFEATHER_HELMERT_BLANK;

static void make(void) {
    const double molodensky[5] = {1, 2, 3, 4, 5};
    const size_t room = SILLFEATHER_SHEET_MAX;
    helmert.t_epoch = 2000.0;
    helmert.dxyz[0] = helmert.rxyz[0] = helmert.drxyz[0] = 1.0;
    for (uint32_t own = 0; own < 2; own++)
        sillfeather_add_helmert(helmerts[own], room, &helmerts_len[own], 0, SILLFEATHER_HELMERT_EXACT + own * SILLFEATHER_HELMERT_OWN_EPOCH,
                                SILLFEATHER_POSITION_VECTOR, SILLFEATHER_NUMBERS(&helmert));
    sillfeather_add_helmert(chart, room, &chart_len, 0, SILLFEATHER_HELMERT_OWN_EPOCH, SILLFEATHER_POSITION_VECTOR, SILLFEATHER_NUMBERS(&helmert));
    sillfeather_add_helmert(all_kinds, room, &all_kinds_len, 0, SILLFEATHER_HELMERT_EXACT, SILLFEATHER_POSITION_VECTOR, SILLFEATHER_NUMBERS(&helmert));
    sillfeather_add_cart(all_kinds, room, &all_kinds_len, 1, SILLFEATHER_GRS80);
    sillfeather_add_molodensky(all_kinds, room, &all_kinds_len, 0, 0, SILLFEATHER_GRS80, 0, molodensky);
    sillfeather_add_permtide(all_kinds, room, &all_kinds_len, 0, SILLFEATHER_GRS80, SILLFEATHER_TIDE_MEAN, SILLFEATHER_TIDE_FREE, SILLFEATHER_PERMTIDE_K);
    sillfeather_add_deformation(all_kinds, room, &all_kinds_len, 0, 0, SILLFEATHER_GRS80, SILLFEATHER_NOT_GIVEN, 2000.0);
    memset(marks, 1, sizeof marks);
    const uint32_t lines[2] = {64, 64};
    const double corner[4] = {0.0, 0.0, 0.05, 0.05};
    memcpy(grid, lines, 8);
    memcpy(grid + 8, corner, sizeof corner);
    for (int i = 0; i < NUMBERS; i++) list[i] = columns[0][i % 4][i / 4] = i;
}

static uint32_t nothing(void) { return 0; }

static uint32_t check(void) { return sillfeather_check(all_kinds, (size_t)all_kinds_len); }

/* forward and inverse; 16 rows and the longest list, which take rooms of their own */
static uint32_t shift(void) {
    uint32_t counts[16], out_of_reach[16], told = 0;
    for (uint32_t inverse = 0; inverse < 2; inverse++)
        for (size_t rows = 16; rows <= ROWS; rows += ROWS - 16) {
            told |= sillfeather_shift(inverse, all_kinds, (size_t)all_kinds_len, list, 4 * rows, velocities, 3 * rows, marks, rows, counts);
            told |= sillfeather_shift_reach(inverse, all_kinds, (size_t)all_kinds_len, list, 4 * rows, velocities, 3 * rows, marks, rows, counts,
                                            out_of_reach);
            for (int own = 0; own < 2; own++)
                told |= sillfeather_shift(inverse, helmerts[own], (size_t)helmerts_len[own], list, 4 * rows, velocities, 0, marks, 0, counts);
        }
    return told;
}

static uint32_t check_grid(void) { return sillfeather_check_grid(grid, sizeof grid); }

static uint32_t shift_grid(void) {
    uint32_t counts[16], out_of_reach[16], told = 0;
    for (uint32_t inverse = 0; inverse < 2; inverse++)
        for (size_t rows = 16; rows <= ROWS; rows += ROWS - 16)
            told |= sillfeather_shift_grid(inverse, all_kinds, (size_t)all_kinds_len, list, 4 * rows, NULL, 0, NULL, 0, grid, sizeof grid, counts, out_of_reach);
    return told;
}

static uint32_t keep(void) {
    uint64_t counted, out_of_reach;
    uint32_t told = 0;
    for (int own = 0; own < 2; own++) {
        told |= sillfeather_keep(0, helmerts[own], (size_t)helmerts_len[own], list, NUMBERS, results, NUMBERS, track, NUMBERS);
        told |= sillfeather_keep_reach(0, helmerts[own], (size_t)helmerts_len[own], list, NUMBERS, results, NUMBERS, track, NUMBERS, &counted,
                                       &out_of_reach);
    }
    return told;
}

/* of a running list every fix is redone */
static uint32_t correct(void) {
    const double fix[4] = {1, 2, 3, 2001};
    uint64_t redone, out_of_reach;
    uint32_t told = 0;
    for (int own = 0; own < 2; own++) {
        told |= sillfeather_correct(0, helmerts[own], (size_t)helmerts_len[own], list, NUMBERS, results, NUMBERS, track, NUMBERS, 3, fix, &redone);
        told |= sillfeather_correct_reach(0, helmerts[own], (size_t)helmerts_len[own], list, NUMBERS, results, NUMBERS, track, NUMBERS, 3, fix, &redone,
                                          &out_of_reach);
    }
    return told;
}

#define LENT(c, rows) (c)[0], rows, (c)[1], rows, (c)[2], rows, (c)[3], rows

static uint32_t shift_columns(void) {
    uint32_t counts[16], out_of_reach[16], told = 0;
    for (uint32_t inverse = 0; inverse < 2; inverse++)
        for (size_t rows = 16; rows <= ROWS; rows += ROWS - 16) {
            told |= sillfeather_shift_columns(inverse, all_kinds, (size_t)all_kinds_len, LENT(columns[0], rows), velocities, 3 * rows, marks, rows, counts, out_of_reach);
            for (int own = 0; own < 2; own++)
                told |= sillfeather_shift_columns(inverse, helmerts[own], (size_t)helmerts_len[own], LENT(columns[0], rows), velocities, 0, marks, 0, counts,
                                      out_of_reach);
        }
    return told;
}

static uint32_t keep_columns(void) {
    uint32_t told = 0;
    for (int own = 0; own < 2; own++)
        told |= sillfeather_keep_columns(0, helmerts[own], (size_t)helmerts_len[own], LENT(columns[0], ROWS), LENT(columns[1], ROWS), LENT(columns[2], ROWS));
    return told;
}

static uint32_t keep_columns_reach(void) {
    uint64_t counted, out_of_reach;
    uint32_t told = 0;
    for (int own = 0; own < 2; own++)
        told |= sillfeather_keep_columns_reach(0, helmerts[own], (size_t)helmerts_len[own], LENT(columns[0], ROWS), LENT(columns[1], ROWS),
                                               LENT(columns[2], ROWS), &counted, &out_of_reach);
    return told;
}

static uint32_t correct_columns(void) {
    const double fix[4] = {1, 2, 3, 2001};
    uint64_t redone;
    uint32_t told = 0;
    for (int own = 0; own < 2; own++)
        told |= sillfeather_correct_columns(0, helmerts[own], (size_t)helmerts_len[own], LENT(columns[0], ROWS), LENT(columns[1], ROWS), LENT(columns[2], ROWS), 3, fix,
                                &redone);
    return told;
}

static uint32_t correct_columns_reach(void) {
    const double fix[4] = {1, 2, 3, 2001};
    uint64_t redone, out_of_reach;
    uint32_t told = 0;
    for (int own = 0; own < 2; own++)
        told |= sillfeather_correct_columns_reach(0, helmerts[own], (size_t)helmerts_len[own], LENT(columns[0], ROWS), LENT(columns[1], ROWS),
                                                  LENT(columns[2], ROWS), 3, fix, &redone, &out_of_reach);
    return told;
}

static uint32_t add(void) {
    return sillfeather_add_helmert(all_kinds, SILLFEATHER_SHEET_MAX, &all_kinds_len, 0, 0, SILLFEATHER_POSITION_VECTOR, SILLFEATHER_NUMBERS(&helmert));
}

static uint32_t rescue(void) {
    static uint8_t room[SILLFEATHER_SHEET_MAX];
    static uint32_t changes[SILLFEATHER_CHANGES_MAX];
    uint64_t changed;
    return sillfeather_rescue(all_kinds, (size_t)all_kinds_len, room, sizeof room, changes, SILLFEATHER_CHANGES_MAX, &changed);
}

static uint32_t check_profile(void) { return sillfeather_check_profile(chart, (size_t)chart_len, SILLFEATHER_PROFILE_CHART); }

/* through both of the chain's ways, over a short list and over a long one */
static uint32_t closure(void) {
    static uint64_t report[16];
    uint32_t told = 0;
    for (size_t rows = 16; rows <= ROWS; rows += ROWS - 16) {
        told |= sillfeather_closure(report, 0, all_kinds, (size_t)all_kinds_len, list, 4 * rows, results, NUMBERS, velocities, 3 * rows, marks, rows);
        for (int own = 0; own < 2; own++)
            told |= sillfeather_closure(report, 0, helmerts[own], (size_t)helmerts_len[own], list, 4 * rows, results, NUMBERS, NULL, 0, NULL, 0);
    }
    return told;
}

static uint32_t closure_grid(void) {
    static uint64_t report[16];
    uint32_t told = 0;
    for (size_t rows = 16; rows <= ROWS; rows += ROWS - 16)
        told |= sillfeather_closure_grid(report, 0, all_kinds, (size_t)all_kinds_len, list, 4 * rows, results, NUMBERS, NULL, 0, NULL, 0, grid, sizeof grid);
    return told;
}

static uint32_t (*call)(void);
static uint32_t told;

static void *run(void *unused) {
    told = call();
    return unused;
}

static size_t used_by(uint32_t (*what)(void), uint8_t *stack) {
    pthread_attr_t attributes;
    pthread_t thread;
    size_t free_bytes = 0;
    call = what;
    memset(stack, FILL, STACK);
    pthread_attr_init(&attributes);
    pthread_attr_setstack(&attributes, stack, STACK);
    if (pthread_create(&thread, &attributes, run, NULL) != 0) exit(1);
    pthread_join(thread, NULL);
    while (stack[free_bytes] == FILL) free_bytes++;
    return STACK - free_bytes;
}

int main(void) {
    static const struct {
        const char *name;
        uint32_t (*call)(void);
        size_t limit;
    } calls[] = {{"check", check, 4096},
                 {"shift", shift, 20480},
                 {"keep", keep, 12288},
                 {"correct", correct, 10240},
                 {"shift over columns", shift_columns, 10240},
                 {"keep over columns", keep_columns, 6144},
                 {"correct over columns", correct_columns, 6144},
                 {"keep over columns, with its numbers", keep_columns_reach, 8192},
                 {"correct over columns, with its numbers", correct_columns_reach, 8192},
                 {"rescue", rescue, 6144},
                 {"check with a profile", check_profile, 4096},
                 {"closure", closure, 20480},
                 {"check of a grid", check_grid, 4096},
                 {"shift with a grid", shift_grid, 20480},
                 {"closure with a grid", closure_grid, 20480},
                 {"add", add, 32768}};
    int passed = 0, failed = 0;
    void *stack;
    if (posix_memalign(&stack, 4096, STACK) != 0) return 1;
    make();
    used_by(nothing, stack); /* the first thread of a program takes more */
    size_t none = used_by(nothing, stack);
    for (size_t i = 0; i < sizeof calls / sizeof *calls; i++) {
        size_t all = used_by(calls[i].call, stack), used = all > none ? all - none : 0;
        int so = told == 0 && used <= calls[i].limit;
        printf("%s %s: %zu bytes of stack, at most %zu\n", so ? "     " : "FAIL ", calls[i].name, used, calls[i].limit);
        passed += so;
        failed += !so;
    }
    printf("%d passed, %d failed\n", passed, failed);
    return failed != 0;
}
