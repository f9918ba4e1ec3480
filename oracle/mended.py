"""A second writer of what `sheet_rescue` prints, written from document 02, A6, and the program held against it to the letter.

    mended.py RANDOM SEED COMMAND..     the last line is 'N passed, M failed'

RANDOM sheets are drawn, damaged in words of header and directory, cut, rejoined, or left whole. For each the text is compared (a number of the shown sheet as
shown.py compares it), and what is written where the bytes alone are asked for.
"""
import random
import struct
import subprocess
import sys

import damaged
from damaged import sheet
from sheet_reader import LENGTHS, check
from shown import RULES, same, set_word, text, word

LOST = (
    "cannot be rebuilt: fewer than 16 bytes, step count 0 or over 16, a directory past the end, a kind or inverted word outside its rule, or bodies that do "
    "not fill the remaining bytes exactly"
)
HEADER = ["form", "total length", "step count", "directory offset"]
ENTRY = ["kind", "inverted", "body offset", "body length"]


def rebuilt(s):
    """The words of header and directory as they should be, or None."""
    if len(s) < 16 or not 1 <= word(s, 8) <= 16 or len(s) < 16 + 16 * word(s, 8):
        return None
    steps = word(s, 8)
    words, at = [1, len(s), steps, 16], 16 + 16 * steps
    for i in range(steps):
        kind, inverted = word(s, 16 + 16 * i), word(s, 20 + 16 * i)
        if kind not in LENGTHS or inverted > 1:
            return None
        words += [kind, inverted, at, LENGTHS[kind]]
        at += LENGTHS[kind]
    return words if at == len(s) else None


def rescue(s):
    """What is printed, and the mended sheet's bytes; none where it is refused."""
    words = rebuilt(s)
    if words is None:
        return "refused 19 step 0: %s\n" % LOST, b""
    whole = struct.pack("<%dI" % len(words), *words) + s[4 * len(words) :]
    number, step = check(whole)
    if number:
        return "refused %d step %d: %s\n" % (number, step, RULES[number]), b""
    changes = [(k, word(s, 4 * k), new) for k, new in enumerate(words) if word(s, 4 * k) != new]
    lines = ["words changed: %d" % len(changes)]
    for k, old, new in changes:
        name = HEADER[k] if k < 4 else "step %d, %s" % (k // 4, ENTRY[k % 4])
        lines.append("%s: %d is %d" % (name, old, new))
    return "\n".join(lines + ["the sheet", ""]) + text(whole), whole


def drawn(rng):
    steps = [rng.choice(rng.choice(damaged.GOOD)) for _ in range(rng.randint(1, 16))]
    s = sheet(steps, [rng.randint(0, 1) for _ in steps])
    places = [0, 4, 12] + [24 + 16 * i + 4 * k for i in range(len(steps)) for k in range(2)]
    for at in rng.sample(places, rng.randint(0, len(places))):
        s = set_word(s, at, rng.choice([0, 1, 2, 16, 311, 2**32 - 1, rng.getrandbits(32), word(s, at) + 1, word(s, rng.choice(places))]))
    how = rng.randrange(12)
    cut = rng.randrange(len(s) + 1)
    if how == 0:
        s = s[:cut]
    if how == 1:
        s = s[cut:] + s[:cut]
    if how == 2:
        s = s + s[cut:]
    if how == 3:
        s = set_word(s, rng.choice([8, 16, 20]), rng.choice([0, 1, 2, 5, 6, 17]))
    if how == 4:
        s = set_word(s, rng.randrange(16 + 16 * len(steps), len(s)) // 4 * 4, 2**32 - 1)
    return s


def main(arguments):
    count, seed, command = int(arguments[0]), int(arguments[1]), arguments[2:]
    rng = random.Random(seed)
    failed = mended = 0
    for _ in range(count):
        s = drawn(rng)
        expected, whole = rescue(s)
        mended += bool(whole)
        told = subprocess.run(command, input=s, stdout=subprocess.PIPE).stdout.decode("ascii", "replace")
        given = subprocess.run(command + ["bytes"], input=s, stdout=subprocess.PIPE).stdout
        if not same(told, expected) or given != whole:
            failed += 1
            print("differs on %s\n--- expected\n%s--- printed\n%s" % (s.hex(), expected, told))
    print("mended: %d sheets drawn, %d of them mended" % (count, mended))
    print("%d passed, %d failed" % (count - failed, failed))
    sys.exit(failed != 0)


main(sys.argv[1:])
