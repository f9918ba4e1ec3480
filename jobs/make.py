"""Makes the stored jobs, each with the text that the program `shift` must print.

    make.py FOLDER      writes NAME.job and NAME.out for each job below

Document 01, "Program", "Marked points" and "Numbers of refusal"; docs/FORMAT.md has the job byte by
byte. Sheets are made by oracle/damaged.py. The texts are written from document 01, by no code of the
library. Of the marked points P6 has no job: the program keeps no run.
"""
import math
import os
import struct
import sys

HERE = os.path.dirname(os.path.abspath(__file__))
sys.path.insert(0, os.path.join(HERE, "../oracle"))
sys.dont_write_bytecode = True
from damaged import NOT_GIVEN, cart, deformation, helmert, molodensky, permtide, sheet

# ---- jobs ----------------------------------------------------------------------------------


def numbers(xs):
    return struct.pack("<%dd" % len(xs), *xs)


def job(sheet, tuples=(), velocities=(), marks=b"", inverse=0):
    """Four words, the sheet, the tuples, the velocities, the marks."""
    words = struct.pack("<4I", inverse, len(sheet), len(tuples), len(velocities))
    return words + sheet + b"".join(map(numbers, tuples)) + b"".join(map(numbers, velocities)) + marks


def with_words(whole, **changed):
    """A job with some of its four words changed and nothing else."""
    names = ["direction", "sheet", "tuples", "velocities"]
    words = list(struct.unpack_from("<4I", whole))
    for name, word in changed.items():
        words[names.index(name)] = word
    return struct.pack("<4I", *words) + whole[16:]


def with_word(sheet, at, word):
    """A sheet with one word changed."""
    return sheet[:at] + struct.pack("<I", word) + sheet[at + 4 :]


# ---- texts ---------------------------------------------------------------------------------


def refused(number, step=0):
    return "refused %d step %d\n" % (number, step)


def bits(x):
    return "7ff8000000000000" if x != x else "%016x" % struct.unpack("<Q", struct.pack("<d", x))


def ran(counts, tuples, out_of_reach=()):
    """A step of which it is told that tuples met an angle out of reach ends with how many."""
    met = list(out_of_reach) + [0] * (len(counts) - len(out_of_reach))
    lines = ["steps %d tuples %d" % (len(counts), len(tuples))]
    lines += ["step %d counted %d" % (i, c) + (" out of reach %d" % m if m else "") for i, (c, m) in enumerate(zip(counts, met), 1)]
    lines += [" ".join(map(bits, t)) for t in tuples]
    return "\n".join(lines) + "\n"


# ---- the marked points ----------------------------------------------------------------------

ORIGIN = (0.0, 0.0, 0.0, 0.0)
GRS80 = sheet([cart()])
B = 6378137.0 * (1.0 - 1.0 / 298.257222101)  # the semiminor axis, its three roundings
RATE = sheet([helmert(n9=1.0, t_epoch=2000.0)])  # DT = (1, 0, 0), t_epoch 2000
OWN = sheet([helmert(flags=8, n9=1.0, t_epoch=2000.0)])


def at_times(*times, x=None):
    xs = x or [0.0] * len(times)
    return [(x, 0.0, 0.0, t) for x, t in zip(xs, times)]


P1 = job(GRS80, [ORIGIN])

JOBS = {
    "p1": (P1, ran([1], [(6378137.0, 0.0, 0.0, 0.0)])),
    "p2": (job(RATE, at_times(2001.0, 2002.0, 2001.0)), ran([3], at_times(2001.0, 2002.0, 2001.0, x=[1.0, 3.0, 4.0]))),
    "p3": (job(OWN, at_times(2001.0, 2002.0, 2001.0)), ran([3], at_times(2001.0, 2002.0, 2001.0, x=[1.0, 2.0, 1.0]))),
    "p4": (job(RATE, at_times(2001.0, 2001.0)), ran([2], at_times(2001.0, 2001.0, x=[1.0, 1.0]))),
    "p5": (
        job(RATE, at_times(2001.0, NOT_GIVEN, 2001.0)),
        ran([3], [(1.0, 0.0, 0.0, 2001.0), (NOT_GIVEN,) * 4, (NOT_GIVEN,) * 3 + (2001.0,)]),
    ),
    "p7": (job(GRS80[:-1], [ORIGIN]), refused(1)),
    "p8": (job(GRS80, [(0.0, 0.0, 7000000.0, 0.0)], inverse=1), ran([0], [(0.0, math.pi / 2, 7000000.0 - B, 0.0)])),
    "p9": (
        job(sheet([molodensky(first=1, offsets=(0.0,) * 5)]), [(0.0, 0.0, -6378137.0, 0.0)]),
        ran([1], [(NOT_GIVEN,) * 3 + (0.0,)]),
    ),
    "p10": (job(sheet([permtide()]), [ORIGIN]), ran([1], [(0.0, 0.0, 0.099, 0.0)])),
    "p11": (job(sheet([helmert(convention=0, n15=1.0, t_epoch=NOT_GIVEN)])), refused(6, 1)),
    "p12": (job(sheet([helmert(n9=1.0, t_epoch=NOT_GIVEN)])), refused(7, 1)),
    # a run-only point, and the same fix without a mark
    "risen": (
        job(sheet([deformation()]), [(6378137.0, 0.0, 0.0, 2010.0)], [(0.0, 0.0, 1000.0)], b"\1"),
        ran([1], [(6378147.0, 0.0, 0.0, 2010.0)]),
    ),
    "absent": (
        job(sheet([deformation()]), [(6378137.0, 0.0, 0.0, 2010.0)], [(0.0, 0.0, 1000.0)], b"\0"),
        ran([0], [(NOT_GIVEN,) * 4]),
    ),
    # document 02, A5: a latitude out of reach, beside one in reach; the inverse takes no angle
    "out_of_reach": (
        job(GRS80, [ORIGIN, (0.0, 1025.0, 0.0, 0.0)]),
        ran([1], [(6378137.0, 0.0, 0.0, 0.0), (NOT_GIVEN,) * 3 + (0.0,)], [1]),
    ),
    "out_of_reach_twice": (
        job(sheet([cart(), cart(), cart()]), [(0.0, 1025.0, 0.0, 0.0)]),
        ran([0, 0, 0], [(NOT_GIVEN,) * 3 + (0.0,)], [1, 0, 1]),
    ),
    # document 02, A3: in own-epoch mode a fix without a time is lost and not counted, and the fixes
    # beside it stay; a fixed sheet ignores the flag and the time
    "missing_time": (
        job(OWN, at_times(2001.0, NOT_GIVEN, 2001.0)),
        ran([2], [(1.0, 0.0, 0.0, 2001.0), (NOT_GIVEN,) * 4, (1.0, 0.0, 0.0, 2001.0)]),
    ),
    "missing_time_inverse": (
        job(OWN, at_times(NOT_GIVEN, 2001.0, NOT_GIVEN), inverse=1),
        ran([1], [(NOT_GIVEN,) * 4, (-1.0, 0.0, 0.0, 2001.0), (NOT_GIVEN,) * 4]),
    ),
    "missing_time_fixed": (
        job(sheet([helmert(flags=8, n9=1.0, t_epoch=2000.0, t_obs=2001.0)]), at_times(NOT_GIVEN)),
        ran([1], at_times(NOT_GIVEN, x=[1.0])),
    ),
    # a time that a step before made NaN is missing; an infinite time is a time
    "missing_time_after_a_step": (
        job(sheet([deformation(), helmert(flags=8, n9=1.0, t_epoch=2000.0)]), [(6378137.0, 0.0, 0.0, 2010.0)], [(0.0, 0.0, 1000.0)], b"\0"),
        ran([0, 0], [(NOT_GIVEN,) * 4]),
    ),
    "infinite_time": (job(OWN, at_times(math.inf)), ran([1], [(NOT_GIVEN,) * 3 + (math.inf,)])),
    # document 02, A13: with flag 2 forward removes the motion since the epoch, and inverse adds it
    "sunk": (
        job(sheet([deformation(flags=2)]), [(6378137.0, 0.0, 0.0, 2010.0)], [(0.0, 0.0, 1000.0)], b"\1"),
        ran([1], [(6378127.0, 0.0, 0.0, 2010.0)]),
    ),
    "sunk_inverse": (
        job(sheet([deformation(flags=2)]), [(6378127.0, 0.0, 0.0, 2010.0)], [(0.0, 0.0, 1000.0)], b"\1", inverse=1),
        ran([1], [(6378137.0, 0.0, 0.0, 2010.0)]),
    ),
}

# ---- refusals, each under its number --------------------------------------------------------

TWICE = sheet([cart(), deformation(), cart(), deformation()])
UP = [(0.0, 0.0, 1000.0)]

JOBS |= {
    "1_no_sheet": (job(b"", [ORIGIN]), refused(1)),
    "1_fifteen_bytes": (job(GRS80[:15]), refused(1)),
    "1_another_length": (job(with_word(GRS80, 4, 41), [ORIGIN]), refused(1)),
    "2_form": (job(with_word(GRS80, 0, 2), [ORIGIN]), refused(2)),
    "3_no_step": (job(with_word(GRS80, 8, 0), [ORIGIN]), refused(3)),
    "3_seventeen_steps": (job(sheet([cart()] * 17), [ORIGIN]), refused(3)),
    "4_directory_offset": (job(with_word(GRS80, 12, 20), [ORIGIN]), refused(4)),
    "4_kind": (job(with_word(GRS80, 16, 6), [ORIGIN]), refused(4)),
    "4_inverted": (job(with_word(GRS80, 20, 2), [ORIGIN]), refused(4)),
    "4_body_length": (job(with_word(GRS80, 28, 7), [ORIGIN]), refused(4)),
    "5_ellipsoid": (job(sheet([cart(6)]), [ORIGIN]), refused(5, 1)),
    "5_second_step": (job(sheet([cart(), permtide(to=0)]), [ORIGIN]), refused(5, 2)),
    "5_deformation_flag": (job(sheet([deformation(flags=4)]), [ORIGIN], UP, b"\1"), refused(5, 1)),
    "6_turned": (job(sheet([cart(), helmert(convention=0, n12=1.0)]), [ORIGIN]), refused(6, 2)),
    "7_no_epoch": (job(sheet([helmert(n6=1.0, t_epoch=NOT_GIVEN)]), [ORIGIN]), refused(7, 1)),
    "8_neither": (job(sheet([deformation(t_epoch=NOT_GIVEN)]), [ORIGIN], UP, b"\1"), refused(8, 1)),
    "10_no_velocities": (job(sheet([deformation()]), [ORIGIN]), refused(10)),
    "10_no_deformation": (job(GRS80, [ORIGIN], UP, b"\1"), refused(10)),
    "10_mark_of_two": (job(sheet([deformation()]), [ORIGIN], UP, b"\2"), refused(10)),
    "11_twice": (job(TWICE, [ORIGIN], UP, b"\1"), refused(11, 4)),
    "11_before_10": (job(TWICE, [ORIGIN]), refused(11, 4)),
    "16_empty": (b"", refused(16)),
    "16_words_alone": (P1[:16], refused(16)),
    "16_byte_short": (P1[:-1], refused(16)),
    "16_byte_long": (P1 + b"\0", refused(16)),
    "16_mark_short": (job(sheet([deformation()]), [ORIGIN], UP, b""), refused(16)),
    "16_direction": (with_words(P1, direction=2), refused(16)),
    "16_sheet_length": (job(bytes(4241), [ORIGIN]), refused(16)),
    "16_tuples": (job(GRS80, [ORIGIN] * 513), refused(16)),
    "16_velocities": (job(sheet([deformation()]), [ORIGIN] * 2, UP, b"\1"), refused(16)),
    "16_before_all": (job(GRS80[:-1], [ORIGIN]) + b"\0", refused(16)),
    "16_longer_than_any": (P1 + bytes(70000), refused(16)),
}

# ---- what else a reader may get wrong --------------------------------------------------------

STILL = helmert(convention=0, t_epoch=NOT_GIVEN)
FIXES = [(3513638.0 + i, 778956.0, 5248216.0 - i, 2020.0 + i / 512) for i in range(512)]

JOBS |= {
    "no_tuples": (job(GRS80), ran([0], [])),
    # a NaN that is not 7ff8000000000000 prints as that; the fix isn't counted
    "nan_bits": (
        job(GRS80, [ORIGIN])[:-8] + struct.pack("<Q", 0xFFF0000000000001),
        ran([0], [(6378137.0, 0.0, 0.0, NOT_GIVEN)]),
    ),
    # the longest job, 33,440 bytes, whose sheet has no room for a deformation step; and the longest that runs: 16 steps that move nothing
    "10_longest_job": (job(sheet([STILL] * 16), FIXES, [(1.0, 2.0, 3.0)] * 512, b"\1" * 512), refused(10)),
    "longest": (
        job(sheet([STILL] * 15 + [deformation(dt=0.0)], [0] * 16), FIXES, [(1.0, 2.0, 3.0)] * 512, b"\1" * 512),
        ran([512] * 16, FIXES),
    ),
}


def main(folder):
    for name, (bytes_of_job, text) in JOBS.items():
        with open(os.path.join(folder, name + ".job"), "wb") as file:
            file.write(bytes_of_job)
        with open(os.path.join(folder, name + ".out"), "w") as file:
            file.write(text)


if __name__ == "__main__":
    main(sys.argv[1])
