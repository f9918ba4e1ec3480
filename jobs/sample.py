"""A sample job, and its answer in words: five fixes of a cable layer in the North Sea, from ITRF2014 into ETRF2014.

    sample.py job       writes the job
    sample.py show      reads what the program printed, and shows it beside what went in

The sheet has three steps on GRS80: cart; the published Helmert shift with its rates (EUREF Technical Note 1; milliarcseconds, set down from memory), in
own-epoch mode, so that each fix is shifted at its own time; cart, inverted. A fix is longitude, latitude, height and time.
"""
import math
import os
import struct
import sys

sys.path.insert(0, os.path.dirname(os.path.abspath(__file__)))
sys.dont_write_bytecode = True
from make import cart, helmert, job, sheet

UAS, OWN_EPOCH = 2, 8
TURNED = [1785.0, 11151.0, -16170.0]  # rotation about each axis at 2010, in microarcseconds
TURNING = [85.0, 531.0, -770.0]  # a year
PLACES = {"n%d" % (12 + i): x for i, x in enumerate(TURNED)} | {"n%d" % (18 + i): x for i, x in enumerate(TURNING)}
SHEET = sheet([cart(), helmert(flags=UAS | OWN_EPOCH, t_epoch=2010.0, **PLACES), cart()], [0, 0, 1])

FIXES = [  # longitude, latitude, metres, year
    (2.0, 56.5, 45.21, 2026.50),
    (2.25, 57.0, 45.40, 2026.51),
    (2.5, 57.5, 45.02, 2026.52),
    (2.75, 58.0, 44.87, 2026.53),
    (3.0, 58.5, 45.33, 2026.54),
]
RADIANS = [(math.radians(lon), math.radians(lat), h, t) for lon, lat, h, t in FIXES]


def show(lines):
    first, *rest = lines
    print("  raw: " + first)
    steps = int(first.split()[1])
    for name, line in zip(["cart", "Helmert, ITRF2014 to ETRF2014", "cart, inverted"], rest):
        print("  raw: %s    (%s)" % (line, name))
    for (lon, lat, h, t), before, line in zip(FIXES, RADIANS, rest[steps:]):
        after = [struct.unpack(">d", bytes.fromhex(word))[0] for word in line.split()]
        east = (after[0] - before[0]) * 6388000.0 * math.cos(before[1])
        north = (after[1] - before[1]) * 6388000.0
        print("  raw: " + line)
        print("       %12.8f E  %12.8f N  %8.4f m  %.2f   ITRF2014" % (lon, lat, h, t))
        print(
            "       %12.8f E  %12.8f N  %8.4f m  %.2f   ETRF2014: %.3f m east, %.3f m north, %.3f m up"
            % (math.degrees(after[0]), math.degrees(after[1]), after[2], after[3], east, north, after[2] - h)
        )


if sys.argv[1] == "job":
    sys.stdout.buffer.write(job(SHEET, RADIANS))
else:
    show(sys.stdin.read().splitlines())
