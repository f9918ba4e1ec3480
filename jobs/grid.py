#!/usr/bin/env python3
"""grid.py FOLDER: jobs with a velocity grid for the program shift_grid, and grids for the program
grid_show, each with the text that the program must print.

NAME.job is a job's bytes with the grid's behind them, and NAME.out its lines; NAME.grid is a grid's
bytes, and NAME.shown its text. Document 02, A1; docs/FORMAT.md has the bytes. The fixes stand on the
axis of X, where a metre a year upwards is a metre a year of X, so that the texts are written by hand
and by no code of the library. A name that begins with a number is a refusal's. jobs/run compares."""
import math
import pathlib
import struct
import sys

sys.path.insert(0, str(pathlib.Path(__file__).parent))
sys.dont_write_bytecode = True
from make import FIXES, GRS80, NOT_GIVEN, ORIGIN, STILL, TWICE, UP, deformation, helmert, job, ran, refused, sheet, with_words

# ---- grids ----------------------------------------------------------------------------------


def grid(south, west, dlat, dlon, columns, nodes):
    """The counts, the corner and the spacings in radians, then each node's three numbers."""
    head = struct.pack("<2I4d", len(nodes) // columns, columns, south, west, dlat, dlon)
    return head + b"".join(struct.pack("<3d", *node) for node in nodes)


def with_number(g, at, x):
    return g[:at] + struct.pack("<d", x) + g[at + 8 :]


def with_count(g, at, word):
    return g[:at] + struct.pack("<I", word) + g[at + 4 :]


RISE, STAND = (0.0, 0.0, 1000.0), (0.0, 0.0, 0.0)
RISING = grid(-0.1, -0.1, 0.2, 0.2, 2, [RISE] * 4)
# longitude and latitude 0 are the north-east, then the south-west corner; the middle of a row's edge
NORTH_EAST = grid(-0.2, -0.2, 0.2, 0.2, 2, [STAND] * 3 + [RISE])
SOUTH_WEST = grid(0.0, 0.0, 0.2, 0.2, 2, [RISE] + [STAND] * 3)
EAST_EDGE = grid(-0.1, -0.2, 0.2, 0.2, 2, [STAND, RISE] * 2)
# rows and columns differ: the second column of three rises, in both rows
THREE = grid(-0.1, -0.5, 0.2, 0.5, 3, [STAND, RISE, STAND] * 2)

# ---- jobs -----------------------------------------------------------------------------------

DEFORMS = sheet([deformation()])
AWAY = helmert(n0=6378137.0, n1=-6378137.0, t_epoch=NOT_GIVEN)
ON, BESIDE = (6378137.0, 0.0, 0.0, 2010.0), (0.0, 6378137.0, 0.0, 2010.0)
RISEN = (6378147.0, 0.0, 0.0, 2010.0)
LOST = (NOT_GIVEN,) * 4
LARGEST = grid(0.0, 0.0, 0.05, 0.05, 64, [(1.0, 2.0, 3.0)] * 4096)

JOBS = {
    "risen": (job(DEFORMS, [ON]) + RISING, ran([1], [RISEN])),
    "inverse": (job(DEFORMS, [RISEN], inverse=1) + RISING, ran([1], [ON])),
    "comments_sign": (job(sheet([deformation(flags=2)]), [RISEN]) + RISING, ran([1], [ON])),
    "outside": (job(DEFORMS, [BESIDE, ON, BESIDE]) + RISING, ran([1], [LOST, RISEN, LOST])),
    "nan_place": (job(DEFORMS, [(NOT_GIVEN, 0.0, 0.0, 2010.0)]) + RISING, ran([0], [LOST])),
    "north_east_corner": (job(DEFORMS, [ON]) + NORTH_EAST, ran([1], [RISEN])),
    "south_west_corner": (job(DEFORMS, [ON]) + SOUTH_WEST, ran([1], [RISEN])),
    "east_edge": (job(DEFORMS, [ON]) + EAST_EDGE, ran([1], [RISEN])),
    "rows_unlike_columns": (job(DEFORMS, [ON]) + THREE, ran([1], [RISEN])),
    # the place is the one at which the step is reached
    "after_a_step": (job(sheet([AWAY, deformation()], [0, 0]), [BESIDE]) + RISING, ran([1, 1], [RISEN])),
    "after_a_step_inverse": (job(sheet([AWAY, deformation()], [0, 0]), [RISEN], inverse=1) + RISING, ran([1, 1], [BESIDE])),
    "before_a_step": (
        job(sheet([deformation(), AWAY], [0, 1]), [ON]) + RISING,
        ran([1, 1], [(10.0, 6378137.0, 0.0, 2010.0)]),
    ),
    "no_deformation": (job(GRS80, [ORIGIN]) + RISING, ran([1], [(6378137.0, 0.0, 0.0, 0.0)])),
    "no_tuples": (job(DEFORMS) + RISING, ran([0], [])),
    # 512 tuples, 16 steps and 4,096 nodes; nothing has moved in no time
    "longest": (
        job(sheet([STILL] * 15 + [deformation(dt=0.0)], [0] * 16), FIXES) + LARGEST,
        ran([512] * 16, FIXES),
    ),
    "1_before_17": (job(GRS80[:-1], [ORIGIN]), refused(1)),
    "10_velocities": (job(DEFORMS, [ON], UP, b"\1") + RISING, refused(10)),
    "10_before_17": (job(DEFORMS, [ON], UP, b"\1"), refused(10)),
    "11_before_17": (job(TWICE, [ORIGIN]), refused(11, 4)),
    "16_nothing": (b"", refused(16)),
    "16_byte_short": (job(DEFORMS, [ON])[:-1], refused(16)),
    "16_direction": (with_words(job(DEFORMS, [ON]), direction=2) + RISING, refused(16)),
    "17_no_grid": (job(DEFORMS, [ON]), refused(17)),
    "17_no_deformation": (job(GRS80, [ORIGIN]), refused(17)),
    "17_byte_short": (job(DEFORMS, [ON]) + RISING[:-1], refused(17)),
    "17_byte_long": (job(DEFORMS, [ON]) + RISING + b"\0", refused(17)),
    "17_one_row": (job(DEFORMS, [ON]) + with_count(RISING, 0, 1), refused(17)),
    "17_sixty_five_columns": (job(DEFORMS, [ON]) + with_count(RISING, 4, 65), refused(17)),
    "17_before_18": (job(DEFORMS, [ON]) + with_number(RISING, 8, math.inf)[:-1], refused(17)),
    "17_longer_than_any": (job(DEFORMS, [ON]) + RISING + bytes(140000), refused(17)),
    "18_nan_node": (job(DEFORMS, [ON]) + with_number(RISING, 128, math.nan), refused(18)),
    "18_no_spacing": (job(DEFORMS, [ON]) + with_number(RISING, 24, 0.0), refused(18)),
}

# ---- grids shown ----------------------------------------------------------------------------


def seen(g, rows, columns):
    return f"bytes: {len(g)}\nrows: {rows}\ncolumns: {columns}\n"


def seventeen(place, g, rows, columns):
    words = "refused 17: grid layout: fewer than 8 bytes, a count outside 2 to 64, or another length than the counts say"
    return f"{words}\nplace: byte {place}\n" + seen(g, rows, columns)


def eighteen(place, g, rows, columns):
    return f"refused 18: grid number not finite or spacing not positive\nplace: byte {place}\n" + seen(g, rows, columns)


HALF = grid(0.0, -0.5, 0.25, 0.5, 3, [(1.5, -2.0, 0.25), STAND, RISE, STAND, RISE, STAND])
HALF_TEXT = """rows: 2
columns: 3
south: 0 degrees (0 rad)
north: 14.323944878 degrees (0.25 rad)
latitude spacing: 14.323944878 degrees (0.25 rad)
west: -28.647889757 degrees (-0.5 rad)
east: 28.647889757 degrees (0.5 rad)
longitude spacing: 28.647889757 degrees (0.5 rad)
row 1 column 1: east 1.5, north -2, up 0.25 mm/year
row 1 column 2: east 0, north 0, up 0 mm/year
row 1 column 3: east 0, north 0, up 1000 mm/year
row 2 column 1: east 0, north 0, up 0 mm/year
row 2 column 2: east 0, north 0, up 1000 mm/year
row 2 column 3: east 0, north 0, up 0 mm/year
"""
ODD = with_number(HALF, 40 + 24 * 4 + 8, -math.inf)

SHOWN = {
    "two_by_three": (HALF, HALF_TEXT),
    "17_nothing": (b"", seventeen(0, b"", 0, 0)),
    "17_seven_bytes": (HALF[:7], seventeen(7, HALF[:7], 2, 3)),
    "17_no_rows": (with_count(HALF, 0, 0), seventeen(0, HALF, 0, 3)),
    "17_too_many_columns": (with_count(HALF, 4, 2**32 - 1), seventeen(4, HALF, 2, 2**32 - 1)),
    "17_short": (HALF[:-1], seventeen(183, HALF[:-1], 2, 3)),
    "17_long": (HALF + bytes(8), seventeen(184, HALF + bytes(8), 2, 3)),
    "18_infinite": (ODD, eighteen(144, ODD, 2, 3)),
    "18_first_of_two": (with_number(ODD, 32, math.nan), eighteen(32, ODD, 2, 3)),
    "18_no_latitude_spacing": (with_number(HALF, 24, -0.0), eighteen(24, HALF, 2, 3)),
    "18_longitude_spacing_negative": (with_number(HALF, 32, -0.5), eighteen(32, HALF, 2, 3)),
}


def main(folder):
    for bytes_of, text_of, all in (("job", "out", JOBS), ("grid", "shown", SHOWN)):
        for name, (lent, text) in all.items():
            (folder / f"{name}.{bytes_of}").write_bytes(lent)
            (folder / f"{name}.{text_of}").write_text(text)


if __name__ == "__main__":
    main(pathlib.Path(sys.argv[1]))
