#!/usr/bin/env python3
"""closure_chart.py PAGE..: the closure pages of several sheets as one chart, SVG on standard output.

A page is what the program `closure` prints; its sheet is named by the file. Left, of each sheet and
coordinate the largest difference between start and end on a scale of powers of ten, taken from the
bits; a difference of 0 is a hollow dot at the scale's foot, one past it a dot at its head. Right, the
share of the fixes that came back bit for bit, dark, and of those with a NaN, light."""
import math
import pathlib
import struct
import sys

LOW, HIGH = -20, 4  # powers of ten
COORDINATES = [("first", "#1b4965"), ("second", "#5fa8d3"), ("third", "#ca6702"), ("time", "#6a994e")]
ROW, TOP, NAMES, SCALE, SHARE = 34, 60, 260, 480, 160


def read(path):
    """A page's counts, and the difference of each coordinate; None where it was refused."""
    lines = pathlib.Path(path).read_text().splitlines()
    if lines[0].startswith("refused"):
        return None
    counts = {line.rsplit(" ", 1)[0]: int(line.rsplit(" ", 1)[1]) for line in lines[:4]}
    differences = {}
    for line in lines[5:9]:
        bits = int(line.split(" bits ")[1].split()[0], 16)
        differences[line.split()[0]] = struct.unpack("<d", struct.pack("<Q", bits))[0]
    return counts, differences


def across(x):
    """Where a difference stands on the scale, in pixels."""
    power = HIGH if math.isinf(x) else math.log10(x)
    return NAMES + SCALE * (min(max(power, LOW), HIGH) - LOW) / (HIGH - LOW)


def row(name, page, y):
    out = [f'<text x="{NAMES - 12}" y="{y + 4}" text-anchor="end">{name}</text>']
    if page is None:
        return out + [f'<text x="{NAMES}" y="{y + 4}">refused</text>']
    counts, differences = page
    for i, (coordinate, colour) in enumerate(COORDINATES):
        x, at = differences[coordinate], y - 9 + 6 * i
        if x == 0.0:
            out.append(f'<circle cx="{NAMES}" cy="{at}" r="2.5" fill="none" stroke="{colour}"/>')
        else:
            out.append(f'<line x1="{NAMES}" y1="{at}" x2="{across(x):.1f}" y2="{at}" stroke="{colour}"/>')
            out.append(f'<circle cx="{across(x):.1f}" cy="{at}" r="2.5" fill="{colour}"/>')
    left, fixes = NAMES + SCALE + 40, max(counts["fixes"], 1)
    restored = SHARE * counts["restored bit for bit"] / fixes
    nans = SHARE * counts["with a NaN at start or end"] / fixes
    out.append(f'<rect x="{left}" y="{y - 8}" width="{SHARE}" height="16" fill="none" stroke="#999"/>')
    out.append(f'<rect x="{left}" y="{y - 8}" width="{restored:.1f}" height="16" fill="#333"/>')
    out.append(f'<rect x="{left + restored:.1f}" y="{y - 8}" width="{nans:.1f}" height="16" fill="#bbb"/>')
    told = f'{counts["restored bit for bit"]} of {counts["fixes"]}'
    return out + [f'<text x="{left + SHARE + 8}" y="{y + 4}">{told}</text>']


def main(paths):
    height = TOP + ROW * len(paths) + 30
    width = NAMES + SCALE + SHARE + 130
    out = [f'<svg xmlns="http://www.w3.org/2000/svg" width="{width}" height="{height}" font-family="sans-serif" font-size="12">']
    out.append(f'<rect width="{width}" height="{height}" fill="white"/>')
    for i, (coordinate, colour) in enumerate(COORDINATES):
        out.append(f'<text x="{NAMES + 80 * i}" y="18" fill="{colour}">{coordinate}</text>')
    out.append(f'<text x="{NAMES + SCALE + 40}" y="18">restored bit for bit</text>')
    for power in range(LOW, HIGH + 1, 4):
        x = NAMES + SCALE * (power - LOW) / (HIGH - LOW)
        out.append(f'<line x1="{x}" y1="{TOP - 24}" x2="{x}" y2="{height - 20}" stroke="#ddd"/>')
        out.append(f'<text x="{x}" y="{TOP - 28}" text-anchor="middle">1e{power}</text>')
    for i, path in enumerate(paths):
        out += row(pathlib.Path(path).stem, read(path), TOP + ROW * i + ROW // 2)
    out.append("</svg>")
    print("\n".join(out))


if len(sys.argv) < 2:
    sys.exit(__doc__)
main(sys.argv[1:])
