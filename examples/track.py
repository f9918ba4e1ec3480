"""The job that the program `display` draws: a ship's round off the Norwegian coast, from ED50 to WGS 84.

    track.py            writes the job, which is crates/display/stdin

Sixty fixes of an hour, in radians and metres, on a closed curve some 700 m across; the shift moves
each by 100 m or so. The longitude of every twentieth fix is a NaN. Three steps: cart on the
International ellipsoid, the published mean translation (NIMA TR8350.2), cart on WGS84, inverted.
"""
import math
import os
import sys

sys.path.insert(0, os.path.join(os.path.dirname(os.path.abspath(__file__)), "../jobs"))
sys.dont_write_bytecode = True
from make import NOT_GIVEN, cart, helmert, job, sheet

SHEET = sheet([cart(3), helmert(convention=0, t_epoch=NOT_GIVEN, n0=-87.0, n1=-98.0, n2=-121.0), cart(2)], [0, 0, 1])
FIXES = 60


def fix(i):
    turn = i / FIXES * 2 * math.pi
    longitude = math.radians(5.0) + 1e-4 * math.sin(turn)
    latitude = math.radians(58.5) + 6e-5 * math.sin(2 * turn)
    return (NOT_GIVEN if i % 20 == 19 else longitude, latitude, 0.0, 2024.0 + i / FIXES / 8766)


sys.stdout.buffer.write(job(SHEET, [fix(i) for i in range(FIXES)]))
