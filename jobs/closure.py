#!/usr/bin/env python3
"""closure.py FOLDER: jobs for the program `closure`, each with the page that it must print.

NAME.job is a job's bytes, NAME.out its page, and NAME.word, where there is one, the word that asks
for a profile. The sheets are Helmert steps by a translation alone, so that Python's own sums and
differences are the steps; the report and the page are made here from document 02 and docs/FORMAT.md,
and not by the library. jobs/run compares."""
import math
import pathlib
import struct
import sys

PRIME = 99999989


def words(*all):
    return struct.pack(f"<{len(all)}I", *all)


def number(x):
    return struct.pack("<d", x) if x == x else struct.pack("<Q", 0x7FF8000000000000)


def bits(x):
    return struct.unpack("<Q", struct.pack("<d", x))[0]


def helmert(move=(0.0, 0.0, 0.0), flags=8, rate=0.0, t_epoch=math.nan, t_obs=math.nan):
    body = words(flags, 0) + b"".join(number(x) for x in move) + number(0.0) * 3
    body += number(rate) + number(0.0) * 17 + number(0.0) * 4 + number(t_epoch) + number(t_obs)
    return 1, body


def cart():
    return 2, words(1, 0)


def molodensky():
    return 3, words(0, 1, 0, 0) + number(0.0) * 5


def deformation():
    return 5, words(0, 1) + number(1.0) + number(math.nan)


def sheet(*steps):
    directory, bodies, at = b"", b"", 16 + 16 * len(steps)
    for kind, body in steps:
        directory += words(kind, 0, at, len(body))
        bodies += body
        at += len(body)
    return words(1, at, len(steps), 16) + directory + bodies


def job(sheet, tuples, direction=0):
    return words(direction, len(sheet), len(tuples), 0) + sheet + b"".join(number(x) for t in tuples for x in t)


def report(tuples, move):
    """The sixteen numbers, from each tuple as it was and as it comes back."""
    seen = nans = restored = 0
    largest, left = [(0, 0, 0)] * 4, False
    for index, start in enumerate(tuples):
        end = [(x * 1.0 + m - m) / 1.0 for x, m in zip(start, move)] + [start[3]]
        seen += 1
        if any(x != x for x in [*start, *end]):
            nans += 1
        elif all(bits(a) == bits(b) for a, b in zip(start, end)):
            restored += 1
        else:
            for i, (a, b) in enumerate(zip(start, end)):
                d = 0 if bits(a) == bits(b) else bits(abs(b - a))
                if not left or largest[i][0] < d:
                    largest[i] = (d, 0, index)
            left = True
    return [1, seen, nans, restored] + [n for w in largest for n in w]


def figure(pattern):
    x = struct.unpack("<d", struct.pack("<Q", pattern))[0]
    if pattern == 0:
        return "0"
    if not x < 2.0**52:
        return "4.503e15 or more"
    k = 0
    while k < 22 and round(x * 10.0**k) < 1000:
        k += 1
    d = round(x * float(10**k))
    return f"{d // 1000}.{d % 1000:03}e{3 - k}"


def page(r, angles=False):
    lines = [f"lists {r[0]}", f"fixes {r[1]}", f"with a NaN at start or end {r[2]}", f"restored bit for bit {r[3]}"]
    lines.append("largest difference of the others")
    unit = "rad" if angles else "m"
    for i, (name, unit) in enumerate([("first", unit), ("second", unit), ("third", "m"), ("time", "year")]):
        pattern, list_, index = r[4 + 3 * i : 7 + 3 * i]
        lines.append(f"{name} {figure(pattern)} {unit} bits {pattern:016x} at list {list_} index {index}")
    whole = 0
    for n in r:
        whole = whole << 64 | n
    lines.append(f"say {whole % PRIME // 10000} {whole % PRIME % 10000}")
    return "\n".join(lines) + "\n"


def jobs():
    """(name, word, job, page)"""
    inf, nan, top = math.inf, math.nan, sys.float_info.max
    lists = {
        "off_in_one_coordinate": ((0.1, 0.0, 0.0), [(1.0, 2.0, 3.0, 4.0), (0.3, 2.0, 3.0, 4.0)]),
        "ties": ((0.1, 0.2, 0.0), [(0.3, 0.7, 3.0, 4.0), (0.3, 0.7, 3.0, 5.0), (1.0, 0.7, 1.0, 1.0)]),
        "nan": ((1.0, 0.0, 0.0), [(nan, 0.0, 0.0, 0.0), (1.0, 0.0, 0.0, nan), (2.0, 0.0, 0.0, 0.0)]),
        "minus_zero": ((1.0, 0.0, 0.0), [(5.0, 0.0, 0.0, 0.0), (-0.0, 0.0, 0.0, 0.0)]),
        "overflow": ((top, 0.0, -top), [(top, 1.0, 1.0, 1.0), (1.0, 1.0, -top, 1.0), (inf, 1.0, 1.0, 1.0)]),
        "far": ((1e300, 3e9, 0.1), [(1.0, 1.5, 6378137.3, 2024.5), (123456.789, 0.1, 0.0, 2024.5)]),
        "no_fixes": ((1.0, 2.0, 3.0), []),
    }
    for name, (move, tuples) in lists.items():
        yield name, None, job(sheet(helmert(move)), tuples), page(report(tuples, move))
    move, tuples = lists["ties"]
    yield "chart", "chart", job(sheet(helmert(move)), tuples), page(report(tuples, move))
    yield "either_direction", None, job(sheet(helmert(move)), tuples, 1), page(report(tuples, move))
    outside = "outside the profile that was asked for"
    refused = lambda number, step, why: f"refused {number} step {step}: {why}\n"
    yield "25_exact", "chart", job(sheet(cart(), helmert(flags=9)), []), refused(25, 2, outside)
    yield "25_dynamic", "chart", job(sheet(helmert(flags=0, rate=1.0, t_epoch=2000.0)), []), refused(25, 1, outside)
    fixed = helmert(flags=0, rate=1.0, t_epoch=2000.0, t_obs=2010.0)
    yield "25_fixed_without_the_flag", "chart", job(sheet(fixed), []), refused(25, 1, outside)
    yield "25_another_kind", "chart", job(sheet(helmert(), molodensky()), []), refused(25, 2, outside)
    yield "25_before_11", "chart", job(sheet(deformation(), deformation()), []), refused(25, 1, outside)
    yield "25_no_such_profile", "charts", job(sheet(helmert()), []), refused(25, 0, outside)
    yield "11_without_a_profile", None, job(sheet(deformation(), deformation()), []), refused(11, 2, "second deformation step")
    yield "8_before_25", "chart", job(sheet((5, words(0, 1) + number(nan) * 2)), []), refused(8, 1, "neither dt nor t_epoch")
    wrong = "velocities or marks of wrong length, or a mark over 1"
    yield "10_no_velocities", None, job(sheet(deformation()), [(1.0, 2.0, 3.0, 4.0)]), refused(10, 0, wrong)
    yield "16_bad_job", "chart", b"\0" * 15, refused(16, 0, "a bad job")


def main(folder):
    folder = pathlib.Path(folder)
    for name, word, bytes_, text in jobs():
        (folder / f"{name}.job").write_bytes(bytes_)
        (folder / f"{name}.out").write_text(text)
        if word is not None:
            (folder / f"{name}.word").write_text(word + "\n")


if len(sys.argv) != 2:
    sys.exit(__doc__)
main(sys.argv[1])
