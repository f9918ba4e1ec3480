#!/usr/bin/env python3
"""draw GRID [FIXES YEARS] > PICTURE.svg: a velocity grid's nodes as arrows, and fixes before and after.

An arrow shows a node's horizontal velocity, a disc its vertical one: filled where it rises, open
where it sinks, the area by how fast. Longitude and latitude are drawn as they are, in degrees, and
the longest arrow is as long as the smaller spacing.

FIXES is a text file, a fix a line: longitude and latitude in degrees, east and north positive. Each
is drawn where it stands, as a ring, and where the ground has carried it after YEARS years, as a dot,
its motion magnified as the caption says. The velocity is found in the grid in the sequence of
docs/FORMAT.md; Python's numbers are binary64 and each operation is rounded once, so these are the
library's own numbers. A fix outside the grid is a cross."""
import math
import struct
import sys

EDGE, STEP = 60, 70  # pixels: around the picture; the smaller spacing


class Grid:
    """The bytes of docs/FORMAT.md: counts, corner and spacings in radians, nodes by row and column."""

    def __init__(self, data):
        if len(data) < 8:
            sys.exit("17: not a grid's layout")
        self.rows, self.columns = struct.unpack_from("<2I", data)
        in_rule = 2 <= self.rows <= 64 and 2 <= self.columns <= 64
        if not in_rule or len(data) != 40 + 24 * self.rows * self.columns:
            sys.exit("17: not a grid's layout")
        numbers = struct.unpack_from(f"<{4 + 3 * self.rows * self.columns}d", data, 8)
        if not all(map(math.isfinite, numbers)) or numbers[2] <= 0 or numbers[3] <= 0:
            sys.exit("18: a number not finite, or a spacing not positive")
        self.south, self.west, self.dlat, self.dlon = numbers[:4]
        self.nodes = [
            [numbers[4 + 3 * (i * self.columns + j) :][:3] for j in range(self.columns)]
            for i in range(self.rows)
        ]
        self.north = self.south + (self.rows - 1) * self.dlat
        self.east = self.west + (self.columns - 1) * self.dlon

    def found(self, longitude, latitude):
        """East, north and up at a place in radians; none outside."""
        if not (self.south <= latitude <= self.north and self.west <= longitude <= self.east):
            return None
        u = spacings(latitude, self.south, self.north, self.dlat, self.rows)
        v = spacings(longitude, self.west, self.east, self.dlon, self.columns)
        i, j = min(int(u), self.rows - 2), min(int(v), self.columns - 2)
        f, g = u - i, v - j
        a, c = 1.0 - f, 1.0 - g
        weights = a * c, a * g, f * c, f * g
        nodes = self.nodes[i][j], self.nodes[i][j + 1], self.nodes[i + 1][j], self.nodes[i + 1][j + 1]
        return [mixed(weights, [node[k] for node in nodes]) for k in range(3)]


def spacings(place, first, last, step, count):
    """How many spacings a place inside stands from the first row or column."""
    quotient = (place - first) / step
    return float(count - 1) if place == last or quotient > count - 1 else quotient


def mixed(w, x):
    return w[0] * x[0] + w[1] * x[1] + w[2] * x[2] + w[3] * x[3]


def arrow(x, y, dx, dy):
    """A line from (x, y), with a head of two strokes."""
    length, turn = math.hypot(dx, dy), math.atan2(dy, dx)
    tip = (x + dx, y + dy)
    head = min(7, length / 2)
    barbs = [
        (tip[0] - head * math.cos(turn + a), tip[1] - head * math.sin(turn + a)) for a in (0.4, -0.4)
    ]
    points = " ".join(f"{a:.1f},{b:.1f}" for a, b in (barbs[0], tip, barbs[1]))
    return (
        f'<line x1="{x:.1f}" y1="{y:.1f}" x2="{tip[0]:.1f}" y2="{tip[1]:.1f}"/>'
        f'<polyline points="{points}"/>'
    )


def draw_fixes(grid, fixes, years, to_picture, unit):
    """Rings before, dots after, a line between; and how many times the motion is magnified."""
    moved = [(lon, lat, grid.found(math.radians(lon), math.radians(lat))) for lon, lat in fixes]
    metre = unit / 111_000  # pixels a metre, near enough for a picture
    longest = max((math.hypot(*v[:2]) for _, _, v in moved if v), default=0.0) * years / 1000
    magnified = 10 ** round(math.log10(STEP / 2 / (longest * metre))) if longest > 0 else 1
    out = ['<g stroke="#b03020" stroke-width="1.5" fill="none">']
    for lon, lat, v in moved:
        x, y = to_picture(lon, lat)
        if v is None:
            out.append(f'<path d="M{x - 4:.1f},{y - 4:.1f}l8,8m0,-8l-8,8"/>')
            continue
        dx, dy = (k * years / 1000 * metre * magnified for k in v[:2])
        out.append(f'<circle cx="{x:.1f}" cy="{y:.1f}" r="4"/>')
        out.append(f'<line x1="{x:.1f}" y1="{y:.1f}" x2="{x + dx:.1f}" y2="{y - dy:.1f}"/>')
        out.append(f'<circle cx="{x + dx:.1f}" cy="{y - dy:.1f}" r="2.5" fill="#b03020"/>')
    return [*out, "</g>"], magnified


def draw(grid, fixes, years):
    south, west, dlat, dlon = (math.degrees(x) for x in (grid.south, grid.west, grid.dlat, grid.dlon))
    unit = STEP / min(dlat, dlon)
    width, height = unit * dlon * (grid.columns - 1), unit * dlat * (grid.rows - 1)
    fastest = max(math.hypot(e, n) for row in grid.nodes for e, n, _ in row) or 1.0
    highest = max(abs(u) for row in grid.nodes for _, _, u in row) or 1.0

    def to_picture(longitude, latitude):
        return EDGE + unit * (longitude - west), EDGE + height - unit * (latitude - south)

    out = [
        f'<svg xmlns="http://www.w3.org/2000/svg" width="{width + 2 * EDGE:.0f}" '
        f'height="{height + 2 * EDGE:.0f}" font-family="sans-serif" font-size="12">',
        '<rect width="100%" height="100%" fill="white"/>',
        f'<rect x="{EDGE}" y="{EDGE}" width="{width:.1f}" height="{height:.1f}" fill="none" stroke="#bbb"/>',
    ]
    discs, arrows = [], []
    for i, row in enumerate(grid.nodes):
        for j, (east, north, up) in enumerate(row):
            x, y = to_picture(west + dlon * j, south + dlat * i)
            radius = 0.3 * STEP * math.sqrt(abs(up) / highest)
            fill = "#e8b04a" if up > 0 else "none"
            discs.append(f'<circle cx="{x:.1f}" cy="{y:.1f}" r="{radius:.1f}" fill="{fill}"/>')
            arrows.append(arrow(x, y, STEP * east / fastest, -STEP * north / fastest))
    out += ['<g stroke="#e8b04a">', *discs, "</g>"]
    out += ['<g stroke="#1c4e80" stroke-width="1.5" fill="none">', *arrows, "</g>"]
    caption = f"longest arrow {fastest:.1f} mm/year, largest disc {highest:.1f} mm/year"
    if fixes:
        shown, magnified = draw_fixes(grid, fixes, years, to_picture, unit)
        out += shown
        caption += f"; fixes after {years:g} years, moved {magnified:,} times as far"
    labels = [
        (EDGE, EDGE + height + 20, f"{west:.2f}° E"),
        (EDGE + width, EDGE + height + 20, f"{west + dlon * (grid.columns - 1):.2f}° E"),
        (EDGE, EDGE - 8, f"{south + dlat * (grid.rows - 1):.2f}° N"),
        (EDGE, EDGE + height + 36, f"{south:.2f}° N"),
        (EDGE + width / 2, EDGE + height + 50, caption),
    ]
    out += [f'<text x="{x:.0f}" y="{y:.0f}" text-anchor="middle">{text}</text>' for x, y, text in labels]
    return "\n".join([*out, "</svg>\n"])


def read_fixes(path):
    with open(path, encoding="ascii") as file:
        return [tuple(map(float, line.split())) for line in file if line.strip()]


if __name__ == "__main__":
    if len(sys.argv) not in (2, 4):
        sys.exit(__doc__)
    with open(sys.argv[1], "rb") as file:
        lent = Grid(file.read())
    ask = (read_fixes(sys.argv[2]), float(sys.argv[3])) if len(sys.argv) == 4 else ([], 0.0)
    sys.stdout.write(draw(lent, *ask))
