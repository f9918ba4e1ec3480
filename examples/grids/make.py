#!/usr/bin/env python3
"""make: writes made_up.grid, a velocity grid of 9 rows by 13 columns.

The field is made up for this example: a slow turn about a point with a rise in the middle. It is no
model of any place. The layout is that of docs/FORMAT.md: two u32 counts, four binary64 numbers for
the corner and the spacings in radians, then east, north and up of each node in mm a year, rows from
the south, nodes from the west; all little-endian."""
import math
import pathlib
import struct

ROWS, COLUMNS = 9, 13
SOUTH, WEST, SPACING = 54.0, 4.0, 2.0  # degrees


def velocity(latitude, longitude):
    """East, north and up in mm a year, to two places."""
    y, x = latitude - 62.0, (longitude - 16.0) * math.cos(math.radians(latitude))
    rise = 8.0 * math.exp(-(x * x + y * y) / 40.0) - 0.5
    return tuple(round(v, 2) for v in (18.0 - 0.6 * y, 14.0 + 0.5 * x, rise))


def grid():
    corner = [math.radians(d) for d in (SOUTH, WEST, SPACING, SPACING)]
    numbers = [
        v
        for i in range(ROWS)
        for j in range(COLUMNS)
        for v in velocity(SOUTH + SPACING * i, WEST + SPACING * j)
    ]
    return struct.pack("<2I", ROWS, COLUMNS) + struct.pack(f"<{4 + len(numbers)}d", *corner, *numbers)


if __name__ == "__main__":
    pathlib.Path(__file__).with_name("made_up.grid").write_bytes(grid())
