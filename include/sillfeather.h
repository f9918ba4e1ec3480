/* Sillfeather, the datum-shift library of ship-borne positioning pairs, as C and C++ call it.
 *
 * Link target/native/libsillfeather.a, which `tools/archive sillfeather` makes of the proved code for
 * the machine at hand, Linux on x86-64 or on Arm. Of the C library it
 * calls at most memcpy, memmove and memset. There is no start-up call, no heap, and no state
 * between calls, so any number of threads may call at once, each with memory of its own to be
 * written.
 *
 * A TUPLE is four doubles: three coordinates (radians or metres) and a time in years. A LIST is
 * tuples one after another, 0 to 2,048 of them, so up to 8,192 doubles. Any bits are allowed: NaNs
 * and infinities are numbers like others, and no call refuses them in a list.
 *
 * A SHEET is 16 to 4,240 bytes that name 1 to 16 steps with their parameters. docs/FORMAT.md gives
 * it byte by byte; the sillfeather_add_ functions below make one without a byte placed by hand.
 *
 * LENGTHS count elements: bytes of a sheet, doubles of a list.
 *
 * A RESULT of type uint32_t is 0 where the call is done. Otherwise the call is refused: the result
 * is the refusal's number plus 65536 times the step, which is counted from 1 and is 0 where no step
 * is to blame. A refused call leaves all the memory lent to it as it was, but that `counts` and
 * `out_of_reach` get zeros, and `*redone`, `*counted` and `*changed` 0. A refusal is given exactly
 * when its rule is broken and no rule before it in the function's order is.
 *
 * WHAT IS PROVED. For each function, and for every input, that the result and the memory afterwards
 * are what its definition says (crates/sillfeather, crates/badekas_entries, crates/reach_entries,
 * crates/closure_entries and crates/grid_entries have the contracts in src/lib.rt,
 * docs/CONFORMANCE.md the way from the documents to them); that it ends; and that it touches nothing
 * but what it is lent.
 * What is said below of what a call reads, writes, refuses and leaves alone follows from that. The
 * compiler and the machine's binary64 arithmetic are assumed.
 *
 * WHAT THE CALLER OWES.
 *   Memory    Each pointer leads to as many elements as the length beside it says, or the array's
 *             size in the declaration, aligned as C aligns them. Where a length is 0 its pointer is
 *             not followed and may be null; no other pointer may be. What a call may write overlaps
 *             with nothing else that is lent to that call, and nobody else reads or writes it
 *             meanwhile; two things that a call only reads may overlap.
 *   Machine   size_t has 64 bits.
 *   Rounding  The processor is in the state that C programs start in: it rounds to the nearest and
 *             keeps subnormal numbers, with neither flush-to-zero nor denormals-are-zero set. A
 *             program that is linked with -ffast-math may set both. The archive rounds each
 *             multiplication and each addition apart; whoever compiles it again must not let the
 *             compiler contract the two into one operation.
 *   Stack     sillfeather_check needs up to 4 kB of stack, sillfeather_shift up to 20 kB,
 *             sillfeather_keep up to 12 kB, sillfeather_correct up to 10 kB, and so does each of
 *             these by the name that ends in _reach; over columns sillfeather_shift_columns up to
 *             10 kB, the kept run's two up to 6 kB, and by the name that ends in _reach 8 kB;
 *             sillfeather_rescue up to 6 kB, sillfeather_check_profile up to 4 kB,
 *             sillfeather_closure up to 20 kB, sillfeather_check_grid up to 4 kB,
 *             sillfeather_shift_grid and sillfeather_closure_grid up to 20 kB, each
 *             sillfeather_add_ function up to 32 kB. examples/c/stack.c holds these limits.
 */
#ifndef SILLFEATHER_H
#define SILLFEATHER_H

#include <math.h>
#include <stddef.h>
#include <stdint.h>

#ifdef __cplusplus
extern "C" {
#endif

/* ----- limits -------------------------------------------------------------------------------- */

#define SILLFEATHER_SHEET_MIN 16   /* bytes */
#define SILLFEATHER_SHEET_MAX 4240 /* bytes: a room that any sheet fits */
#define SILLFEATHER_STEPS_MAX 16
#define SILLFEATHER_TUPLES_MAX 2048

/* ----- results ------------------------------------------------------------------------------- */

#define SILLFEATHER_NUMBER(result) ((uint32_t)(result) & 0xffffu) /* the refusal's number, else 0 */
#define SILLFEATHER_STEP(result) ((uint32_t)(result) >> 16)       /* the step to blame, or 0 */

enum {
    SILLFEATHER_DONE = 0,
    SILLFEATHER_REFUSED_LENGTH = 1,       /* fewer than 16 or more than 4,240 bytes, or not as many
                                             as the sheet's total length says */
    SILLFEATHER_REFUSED_FORM = 2,         /* the form is not 1 */
    SILLFEATHER_REFUSED_COUNT = 3,        /* no step, or more than 16 */
    SILLFEATHER_REFUSED_DIRECTORY = 4,    /* a directory offset, kind, inverted word, body length or
                                             body offset outside its rule; a directory that does not
                                             fit into the sheet; or bodies that do not end at the
                                             sheet's end */
    SILLFEATHER_REFUSED_FIELD = 5,        /* a field of the step's body is outside its rule */
    SILLFEATHER_REFUSED_CONVENTION = 6,   /* Helmert or ten-parameter: rotated, and no convention */
    SILLFEATHER_REFUSED_EPOCH = 7,        /* Helmert: dynamic, and t_epoch not given */
    SILLFEATHER_REFUSED_DURATION = 8,     /* deformation: neither dt nor t_epoch given */
    SILLFEATHER_REFUSED_LIST = 9,         /* a list not of whole tuples, or of more than 2,048 */
    SILLFEATHER_REFUSED_VELOCITIES = 10,  /* velocities or marks of wrong length; a mark over 1 */
    SILLFEATHER_REFUSED_DEFORMATION = 11, /* a second deformation step */
    SILLFEATHER_REFUSED_KEPT_SHEET = 12,  /* kept run: the sheet is not one Helmert or ten-parameter
                                             step */
    SILLFEATHER_REFUSED_KEPT_LENGTH = 13, /* kept run: results or track not as long as the list */
    SILLFEATHER_REFUSED_INDEX = 14,       /* the corrected fix's index is not below the number of
                                             tuples */
    SILLFEATHER_REFUSED_ROOM = 15,        /* the room is too short for the sheet, or a rescue's list
                                             for its changes, or a closure's room for its list */
    SILLFEATHER_REFUSED_GRID = 17,        /* a velocity grid of fewer than 8 bytes, with a count
                                             outside 2 to 64, or of another length than its counts
                                             say */
    SILLFEATHER_REFUSED_GRID_NUMBER = 18, /* a number of a velocity grid not finite, or a spacing not
                                             positive */
    SILLFEATHER_REFUSED_RESCUE = 19,      /* the damaged sheet cannot be rebuilt */
    SILLFEATHER_REFUSED_PROFILE = 25      /* the step is outside the profile that was asked for, or
                                             nobody knows that profile */
};

/* ----- a sheet over a list ------------------------------------------------------------------- */

/* Whether a sheet breaks no rule.
 *   Reads     the sheet.
 *   Writes    nothing.
 *   Refuses   1, 2, 3, 4; then step by step 5, 6, 7, 8; then 11. With the step: 5 to 8 and 11. */
uint32_t sillfeather_check(const uint8_t *sheet, size_t sheet_len);

/* Runs a sheet's steps over a list, in place: in order where `inverse` is 0, else in reverse with
 * each step turned round.
 *   Reads     the sheet, the list, and, for a deformation step, a velocity (east, north, up,
 *             mm/year: three doubles) and a mark a tuple, in the list's order: 1 where the velocity
 *             is present, 0 where it is absent. A sheet without a deformation step asks for both of
 *             length 0.
 *   Writes    the list; and all 16 counts: how many tuples each step counted, in the sheet's order
 *             and never over 2,048, 0 where there is no such step.
 *   Refuses   as sillfeather_check; then 9, then 10.
 *   Leaves    on refusal the list as it was, and zeros in counts. */
uint32_t sillfeather_shift(uint32_t inverse, const uint8_t *sheet, size_t sheet_len, double *list, size_t list_len, const double *velocities,
                           size_t velocities_len, const uint8_t *marks, size_t marks_len, uint32_t counts[16]);

/* The same, telling of each step too how many tuples met an angle out of reach: an angle that the
 * step takes the sine or the cosine of, and that is not finite or beyond ±1024. Each tuple is told
 * once, however many of its angles are. Such a tuple's results are NaN where they rest on that angle.
 *   cart forward, and Molodensky both ways: longitude or latitude; abridged also twice the latitude.
 *   permtide: latitude. deformation: longitude or latitude of the place of a fix that is present.
 *   Helmert with exact angles, where it is rotated: the angles of the matrix that the fix uses, in
 *   running mode at the last time, in own-epoch mode at its own; a fix without a time uses none. A
 *   ten-parameter step with exact angles, where it is rotated: its angles, so all tuples or none.
 *   Writes    as sillfeather_shift; and all 16 of out_of_reach, in the sheet's order.
 *   Leaves    on refusal the list as it was, and zeros in counts and out_of_reach. */
uint32_t sillfeather_shift_reach(uint32_t inverse, const uint8_t *sheet, size_t sheet_len, double *list, size_t list_len, const double *velocities,
                                 size_t velocities_len, const uint8_t *marks, size_t marks_len, uint32_t counts[16], uint32_t out_of_reach[16]);

/* The same over four columns: the first coordinates of all tuples, the second, the third, the times.
 *   Refuses   as sillfeather_shift; 9 also for columns of unequal length.
 *   Leaves    on refusal the columns as they were, and zeros in counts and out_of_reach. */
uint32_t sillfeather_shift_columns(uint32_t inverse, const uint8_t *sheet, size_t sheet_len, double *x, size_t x_len, double *y, size_t y_len,
                                   double *z, size_t z_len, double *t, size_t t_len, const double *velocities, size_t velocities_len,
                                   const uint8_t *marks, size_t marks_len, uint32_t counts[16], uint32_t out_of_reach[16]);

/* ----- a velocity grid ------------------------------------------------------------------------ */

/* A VELOCITY GRID is 136 to 98,344 bytes: two counts, a corner, two spacings and the velocities at
 * the nodes. docs/FORMAT.md gives it byte by byte, with the sequence of roundings by which a velocity
 * is found. The grid's edges belong to it. Longitudes are not wrapped: a grid that begins west of ±π
 * finds nothing on the other side. */
#define SILLFEATHER_GRID_MAX 98344 /* bytes: 64 rows by 64 columns */

/* Whether a velocity grid breaks no rule.
 *   Reads     the grid.
 *   Writes    nothing.
 *   Refuses   17, then 18, without a step. */
uint32_t sillfeather_check_grid(const uint8_t *grid, size_t grid_len);

/* A sheet over a list, as sillfeather_shift_reach, with a velocity grid: a deformation step moves each
 * fix by the velocity that the grid gives at its place as it reaches the step, on the step's
 * ellipsoid. A fix whose place is outside the grid, or NaN, is absent. A grid is always given, whether
 * or not the sheet has a deformation step, and velocities and marks are then empty.
 *   Reads     the sheet, the grid, velocities_len and marks_len.
 *   Writes    the list, and all 16 of counts and of out_of_reach, in the sheet's order. With a grid no
 *             fix meets an angle out of reach in the deformation step.
 *   Refuses   as sillfeather_check; then 9, 10 (velocities or marks not empty), 17, 18.
 *   Leaves    on refusal the list as it was, and zeros in counts and out_of_reach. */
uint32_t sillfeather_shift_grid(uint32_t inverse, const uint8_t *sheet, size_t sheet_len, double *list, size_t list_len, const double *velocities,
                                size_t velocities_len, const uint8_t *marks, size_t marks_len, const uint8_t *grid, size_t grid_len,
                                uint32_t counts[16], uint32_t out_of_reach[16]);

/* ----- the kept run -------------------------------------------------------------------------- */

/* A run that is kept, to be corrected later: the list stays, and the results and the track go where
 * the caller keeps them. The sheet is one Helmert or ten-parameter step.
 *   Reads     the sheet and the list.
 *   Writes    results: what sillfeather_shift makes of the list. track: four doubles a fix, the
 *             state after it: the last time and the translation.
 *   Refuses   as sillfeather_check; then 12, 9, 13.
 *   Leaves    the list; on refusal results and track as they were. */
uint32_t sillfeather_keep(uint32_t inverse, const uint8_t *sheet, size_t sheet_len, const double *list, size_t list_len, double *results,
                          size_t results_len, double *track, size_t track_len);

/* Corrects one fix of a kept run: puts it in the list at `index`, counted in tuples from 0, and
 * redoes from there until the carried state is the one that the track has, else to the end. With
 * `inverse`, sheet, list, results and track of a sillfeather_keep that was done, and of corrections
 * after it, the three lists end as a sillfeather_keep of the corrected list would leave them.
 *   Reads     the sheet, the list, the fix, and the track.
 *   Writes    the list's tuple at `index`; results and track of the fixes redone and of no others;
 *             *redone, how many those are: at least 1.
 *   Refuses   as sillfeather_check; then 12, 9, 13, 14.
 *   Leaves    on refusal list, results and track as they were, and 0 in *redone. */
uint32_t sillfeather_correct(uint32_t inverse, const uint8_t *sheet, size_t sheet_len, double *list, size_t list_len, double *results,
                             size_t results_len, double *track, size_t track_len, size_t index, const double fix[4], uint64_t *redone);

/* As sillfeather_keep and sillfeather_correct, telling too how many fixes met an angle out of reach
 * (see sillfeather_shift_reach).
 *   Writes    as those; *counted, how many fixes the step counted (all, save in own-epoch mode those
 *             without a time), and *out_of_reach, of the whole list; after a correction of the fixes
 *             redone alone. The number of a fresh run over the corrected list is the sum of what
 *             stands before them, of *out_of_reach, and of what stands after them.
 *   Leaves    on refusal 0 in *counted, *redone and *out_of_reach, and all else as it was. */
uint32_t sillfeather_keep_reach(uint32_t inverse, const uint8_t *sheet, size_t sheet_len, const double *list, size_t list_len, double *results,
                                size_t results_len, double *track, size_t track_len, uint64_t *counted, uint64_t *out_of_reach);
uint32_t sillfeather_correct_reach(uint32_t inverse, const uint8_t *sheet, size_t sheet_len, double *list, size_t list_len, double *results,
                                   size_t results_len, double *track, size_t track_len, size_t index, const double fix[4], uint64_t *redone,
                                   uint64_t *out_of_reach);

/* As sillfeather_keep and sillfeather_correct over columns: the list's four (x, y, z, t), those of the
 * results (rx to rt) and those of the track (kx to kt: the last time, and the translation).
 *   Refuses   as those; 9 also for columns of the list that are of unequal length, 13 for a column of
 *             the results or of the track that is not as long as the list's. */
uint32_t sillfeather_keep_columns(uint32_t inverse, const uint8_t *sheet, size_t sheet_len, const double *x, size_t x_len, const double *y, size_t y_len,
                                  const double *z, size_t z_len, const double *t, size_t t_len, double *rx, size_t rx_len, double *ry, size_t ry_len,
                                  double *rz, size_t rz_len, double *rt, size_t rt_len, double *kx, size_t kx_len, double *ky, size_t ky_len,
                                  double *kz, size_t kz_len, double *kt, size_t kt_len);
uint32_t sillfeather_correct_columns(uint32_t inverse, const uint8_t *sheet, size_t sheet_len, double *x, size_t x_len, double *y, size_t y_len,
                                     double *z, size_t z_len, double *t, size_t t_len, double *rx, size_t rx_len, double *ry, size_t ry_len,
                                     double *rz, size_t rz_len, double *rt, size_t rt_len, double *kx, size_t kx_len, double *ky, size_t ky_len,
                                     double *kz, size_t kz_len, double *kt, size_t kt_len, size_t index, const double fix[4], uint64_t *redone);

/* The same two, telling as sillfeather_keep_reach and sillfeather_correct_reach do.
 *   Writes    as the two above; *counted, *redone and *out_of_reach, the numbers of the list that the
 *             columns stand for.
 *   Leaves    on refusal 0 in *counted, *redone and *out_of_reach, and all else as it was. */
uint32_t sillfeather_keep_columns_reach(uint32_t inverse, const uint8_t *sheet, size_t sheet_len, const double *x, size_t x_len, const double *y,
                                        size_t y_len, const double *z, size_t z_len, const double *t, size_t t_len, double *rx, size_t rx_len, double *ry,
                                        size_t ry_len, double *rz, size_t rz_len, double *rt, size_t rt_len, double *kx, size_t kx_len, double *ky,
                                        size_t ky_len, double *kz, size_t kz_len, double *kt, size_t kt_len, uint64_t *counted, uint64_t *out_of_reach);
uint32_t sillfeather_correct_columns_reach(uint32_t inverse, const uint8_t *sheet, size_t sheet_len, double *x, size_t x_len, double *y, size_t y_len,
                                           double *z, size_t z_len, double *t, size_t t_len, double *rx, size_t rx_len, double *ry, size_t ry_len,
                                           double *rz, size_t rz_len, double *rt, size_t rt_len, double *kx, size_t kx_len, double *ky, size_t ky_len,
                                           double *kz, size_t kz_len, double *kt, size_t kt_len, size_t index, const double fix[4], uint64_t *redone,
                                           uint64_t *out_of_reach);

/* ----- making a sheet ------------------------------------------------------------------------ */

/* Each function adds one step at the end of the sheet that stands in the first *sheet_len bytes of
 * the room; *sheet_len is 0 where there is none yet. Added to nothing one after another, steps give
 * the bytes that the proved writer gives for a record of those steps, and a sheet that
 * sillfeather_check accepts.
 *   Reads     the sheet in the room, and the numbers.
 *   Writes    the new sheet at the room's start, and nothing after it; *sheet_len, its length. A
 *             room of SILLFEATHER_SHEET_MAX bytes is never too short.
 *   Refuses   first what stands in the room, as sillfeather_check (1 too where *sheet_len is more
 *             than the room's length); then the sheet with the step added: 3, a seventeenth step;
 *             4, `inverted` neither 0 nor 1; step by step 5, 6, 7, 8; 11; 15, the room too short.
 *   Leaves    on refusal the room and *sheet_len as they were.
 * `inverted` is 1 where the step is to run the other way round. All numbers are finite, save that
 * t_epoch, t_obs and dt may be a NaN, which is "not given". */

#define SILLFEATHER_NOT_GIVEN ((double)NAN)

/* Ellipsoids. */
enum {
    SILLFEATHER_GRS80 = 1,
    SILLFEATHER_WGS84 = 2,
    SILLFEATHER_INTERNATIONAL_1924 = 3,
    SILLFEATHER_BESSEL_1841 = 4,
    SILLFEATHER_KRASSOWSKY_1940 = 5
};

/* Helmert: flags, to be added up, and the rotation's convention. */
enum {
    SILLFEATHER_HELMERT_EXACT = 1,    /* the matrix by sines and cosines, not small-angle */
    SILLFEATHER_HELMERT_UAS = 2,      /* angles in micro-arcseconds, not in arcseconds */
    SILLFEATHER_HELMERT_MM = 4,       /* lengths in millimetres, not in metres */
    SILLFEATHER_HELMERT_OWN_EPOCH = 8 /* each tuple at its own time, not running */
};

/* A tuple whose time is a NaN has lost it. In own-epoch mode, with rates and without t_obs, such a
 * tuple becomes three NaNs, its time stays, and it is not counted; the others are untouched. In
 * running mode one NaN time spoils its own tuple and all that follow, and all are counted. Without
 * rates, or with t_obs, a tuple's time is not asked for. */

enum {
    SILLFEATHER_CONVENTION_NONE = 0, /* only where nothing is rotated */
    SILLFEATHER_POSITION_VECTOR = 1,
    SILLFEATHER_COORDINATE_FRAME = 2
};

/* The 30 numbers of a Helmert step, in the body's order. A single (x, dx, rx, drx, ..) that is not
 * zero wins over its place in the series before it, and so do scale over s and scale_rate over
 * ds. */
struct sillfeather_helmert {
    double translation[3];      /* metres, or mm */
    double xyz[3];              /* singles of the translation */
    double translation_rate[3]; /* a year */
    double dxyz[3];             /* singles of the translation's rate */
    double rotation[3];         /* arcseconds, or micro-arcseconds */
    double rxyz[3];             /* singles of the rotation */
    double rotation_rate[3];    /* a year */
    double drxyz[3];            /* singles of the rotation's rate */
    double scale;               /* parts in a million; wins over s */
    double s;
    double scale_rate;          /* a year; wins over ds */
    double ds;
    double t_epoch;             /* years, or not given */
    double t_obs;               /* years, or not given: the one time that all tuples are taken at */
};

/* The blank record to begin with. Its numbers are zeros, and no times:
 *     struct sillfeather_helmert h = SILLFEATHER_HELMERT_BLANK;
 *     h.translation[0] = -87.0;
 *     sillfeather_add_helmert(room, room_len, &sheet_len, 0, SILLFEATHER_HELMERT_BLANK_FLAGS,
 *                             SILLFEATHER_CONVENTION_NONE, SILLFEATHER_NUMBERS(&h));
 * Its flags are SILLFEATHER_HELMERT_BLANK_FLAGS: own-epoch, so that no fix's result depends on the
 * fixes before it. Add other flags to them; leave them out for the Rust's running mode. */
enum {
    SILLFEATHER_HELMERT_BLANK_FLAGS = SILLFEATHER_HELMERT_OWN_EPOCH
};

#define SILLFEATHER_HELMERT_BLANK                                                                                                                      \
    {                                                                                                                                                  \
        {0.0, 0.0, 0.0}, {0.0, 0.0, 0.0}, {0.0, 0.0, 0.0}, {0.0, 0.0, 0.0}, {0.0, 0.0, 0.0}, {0.0, 0.0, 0.0}, {0.0, 0.0, 0.0}, {0.0, 0.0, 0.0},        \
            0.0, 0.0, 0.0, 0.0, SILLFEATHER_NOT_GIVEN, SILLFEATHER_NOT_GIVEN                                                                           \
    }

/* The record as the array of 30 numbers that sillfeather_add_helmert takes. */
#define SILLFEATHER_NUMBERS(helmert) ((const double *)(const void *)(helmert))

/* Helmert. numbers: the 30 of struct sillfeather_helmert, in its order. */
uint32_t sillfeather_add_helmert(uint8_t *room, size_t room_len, uint64_t *sheet_len, uint32_t inverted, uint32_t flags, uint32_t convention,
                                 const double numbers[30]);

/* Geographic (longitude, latitude, height) to cartesian. */
uint32_t sillfeather_add_cart(uint8_t *room, size_t room_len, uint64_t *sheet_len, uint32_t inverted, uint32_t ellipsoid);

/* Molodensky: flags, to be added up. With two ellipsoids da and df are the second's less the
 * first's, and the numbers da and df are +0; without, second is 0. */
enum {
    SILLFEATHER_MOLODENSKY_ABRIDGED = 1,
    SILLFEATHER_MOLODENSKY_TWO_ELLIPSOIDS = 2
};

/* numbers: dx, dy, dz, da, df. */
uint32_t sillfeather_add_molodensky(uint8_t *room, size_t room_len, uint64_t *sheet_len, uint32_t inverted, uint32_t flags, uint32_t first,
                                    uint32_t second, const double numbers[5]);

/* Permanent tide: systems, and the Rust crate's k. */
enum {
    SILLFEATHER_TIDE_MEAN = 1,
    SILLFEATHER_TIDE_ZERO = 2,
    SILLFEATHER_TIDE_FREE = 3
};

#define SILLFEATHER_PERMTIDE_K 0.3

uint32_t sillfeather_add_permtide(uint8_t *room, size_t room_len, uint64_t *sheet_len, uint32_t inverted, uint32_t ellipsoid, uint32_t to,
                                  uint32_t from, double k);

/* Deformation: flags. Raw writes the correction and its length in the tuple's place. Without the
 * comment's sign forward adds the motion since t_epoch and inverse removes it, as the Rust's code
 * does; with it forward removes the motion since t_epoch and inverse adds it, as the comment in the
 * Rust's file says. */
enum {
    SILLFEATHER_DEFORMATION_RAW = 1,
    SILLFEATHER_DEFORMATION_COMMENT_SIGN = 2
};

/* dt in years where it is given; else the time from t_epoch to each tuple's. */
uint32_t sillfeather_add_deformation(uint8_t *room, size_t room_len, uint64_t *sheet_len, uint32_t inverted, uint32_t flags, uint32_t ellipsoid,
                                     double dt, double t_epoch);

/* Ten-parameter shift, Molodensky-Badekas (IOGP 373-7-2, EPSG methods 1034 and 1061): flags, to be
 * added up. Conventions are Helmert's. The step is static: forward it takes the pivot off, rotates,
 * scales, and adds the pivot and then the translation; inverse undoes this in reverse. */
enum {
    SILLFEATHER_BADEKAS_EXACT = 1, /* sines and cosines of the angles */
    SILLFEATHER_BADEKAS_UAS = 2,   /* angles in micro arcseconds */
    SILLFEATHER_BADEKAS_MM = 4     /* the translation in millimetres; the pivot stays in metres */
};

/* numbers: translation x, y, z; rotation x, y, z; scale in ppm; pivot x, y, z in metres. */
uint32_t sillfeather_add_badekas(uint8_t *room, size_t room_len, uint64_t *sheet_len, uint32_t inverted, uint32_t flags, uint32_t convention,
                                 const double numbers[10]);

/* ----- a damaged sheet ------------------------------------------------------------------------ */

/* Rebuilds a sheet of form 1 whose header or directory was damaged, as by a laptop that cut and
 * rejoined it. The step count, the kinds, the inverted words and the bodies are taken as they
 * stand; form, total length, directory offset, body offsets and body lengths follow from them and
 * are written anew. A sheet that is whole comes out as it is.
 *   Reads     the damaged sheet.
 *   Writes    the rebuilt sheet, as long as the damaged one, at the room's start; three words for
 *             each word of header or directory that was changed at the changes' start: its place in
 *             bytes from the sheet's start, the old number and the new one, in ascending place;
 *             *changed, how many such triples those are. `changes_len` counts uint32_t. A room of
 *             SILLFEATHER_SHEET_MAX bytes and SILLFEATHER_CHANGES_MAX words are never too short.
 *   Refuses   19, where it cannot be rebuilt: fewer than 16 bytes; a step count of 0 or over 16; a
 *             directory past the end; a kind outside 1 to 6 or an inverted word over 1; or bodies
 *             that do not fill the remaining bytes exactly. Then 15, the room shorter than the sheet
 *             or the changes than three words a change. Then as sillfeather_check of the rebuilt
 *             sheet, of which only 5 to 8 and 11 are left, each with its step.
 *   Leaves    the damaged sheet, and what lies behind the sheet in the room and behind the triples;
 *             on refusal room and changes as they were, and 0 in *changed. */
#define SILLFEATHER_CHANGES_MAX 105 /* 3 words of the header and 2 a step, three numbers each */

uint32_t sillfeather_rescue(const uint8_t *damaged, size_t damaged_len, uint8_t *room, size_t room_len, uint32_t *changes, size_t changes_len,
                            uint64_t *changed);

/* ----- before sailing ------------------------------------------------------------------------ */

/* The profiles that a sheet can be judged by. The chart profile lets Helmert and cart steps through,
 * no other kinds; no Helmert step with the exact flag; and no dynamic Helmert step without the
 * own-epoch flag, also where t_obs fixes it. */
enum { SILLFEATHER_PROFILE_NONE = 0, SILLFEATHER_PROFILE_CHART = 1 };

/* Whether a sheet breaks no rule, and none of a profile's.
 *   Reads     the sheet.
 *   Writes    nothing.
 *   Refuses   1, 2, 3, 4; then step by step 5, 6, 7, 8; then 25, where a profile is asked for, with
 *             the first offending step, or with step 0 where `profile` is neither 0 nor 1: no sheet
 *             passes a profile that nobody knows. Then 11. With SILLFEATHER_PROFILE_NONE it answers
 *             as sillfeather_check. */
uint32_t sillfeather_check_profile(const uint8_t *sheet, size_t sheet_len, uint32_t profile);

/* Runs a sheet forward and then inverse over a list, and adds to a report what became of its fixes.
 * A report is sixteen numbers, zeros to begin with; one list after another is added to it by a call
 * each, and any numbers in it are taken as they stand. Where two boxes hold the same sixteen numbers
 * after the same lists, every tuple counted alike and every worst fix is the same fix.
 *   [0]  lists added          [1]  tuples seen
 *   [2]  tuples with a NaN in one of their four numbers, at the start or at the end
 *   [3]  tuples without one that came back bit for bit in all four
 *   [4]  the largest difference of the first coordinate among the other tuples: the bits, as a
 *        double has them, of |end - start|, rounded once; 0 where the two have equal bits
 *   [5]  the list that it stands in, and [6] its index there, both counted from 0; the earliest
 *        where several differ by as much; 0 and 0 where no other tuple was seen
 *   [7] [8] [9], [10] [11] [12], [13] [14] [15]   the same of the other three coordinates
 * Each of the first four stays at 2^64 - 1 once it is there.
 *   Reads     the sheet, the list, the report, and, for a deformation step, velocities and marks,
 *             as sillfeather_shift does; the same serve both ways.
 *   Writes    the report; and at the room's start the list as it came back.
 *   Refuses   as sillfeather_check_profile; then 9, 10; then 15, the room shorter than the list.
 *   Leaves    the list, and what lies behind it in the room; on refusal report and room as they
 *             were. */
uint32_t sillfeather_closure(uint64_t report[16], uint32_t profile, const uint8_t *sheet, size_t sheet_len, const double *list, size_t list_len,
                             double *room, size_t room_len, const double *velocities, size_t velocities_len, const uint8_t *marks,
                             size_t marks_len);

/* The same with a velocity grid, as sillfeather_shift_grid takes one. It serves both ways: each way
 * looks it up where the fix then is.
 *   Refuses   as sillfeather_check_profile; then 9, 10 (velocities or marks not empty), 17, 18; then
 *             15, the room shorter than the list. */
uint32_t sillfeather_closure_grid(uint64_t report[16], uint32_t profile, const uint8_t *sheet, size_t sheet_len, const double *list, size_t list_len,
                                  double *room, size_t room_len, const double *velocities, size_t velocities_len, const uint8_t *marks,
                                  size_t marks_len, const uint8_t *grid, size_t grid_len);

/* ----- the kernels --------------------------------------------------------------------------- */

/* On any doubles; nothing is refused. docs/KERNELS.md has each one's sequence of operations, its
 * special cases (proved) and its error (measured). */

/* The square root, correctly rounded: -0 of -0, +infinity of +infinity, NaN of a negative number or
 * of a NaN. */
double sillfeather_sqrt(double x);

/* Sine and cosine of x in radians: within -1 to 1; NaN where x is not finite or beyond 1024 either
 * way. */
double sillfeather_sin(double x);
double sillfeather_cos(double x);

/* Both at once: writes the same numbers as the two functions above to *s and *c. */
void sillfeather_sin_cos(double x, double *s, double *c);

/* The same with a name for an angle out of reach, which is one not finite or beyond 1024 either way:
 * 0 and the pair, or 1 and nothing written. */
uint32_t sillfeather_sin_cos_reach(double x, double *s, double *c);

/* The angle of (x, y), with IEEE 754's answers for zeros, infinities and quadrants. */
double sillfeather_atan2(double y, double x);

/* The length of (x, y): +infinity where a part is infinite, even beside a NaN. */
double sillfeather_hypot(double x, double y);

#ifdef __cplusplus
}
#endif

#endif
