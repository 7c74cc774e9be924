"""The worst designs of 1,000,000 commands that we could find, and the commands on designs.

They are written as EXP: a stitch is two bytes, and a trim and a stop are units of their own."""

import math
import random

COUNT = 1_000_000
REACH = 29_000
STOP = b"\x80\x01\x00\x00"
TRIM = b"\x80\x80\x07\x00"
# The program and the words of each command: IN is the design. What it writes has the name `written`.
COMMANDS = {
    "look": ("design", "look IN"),
    "look, all": ("design", "look IN short=1000 long=1 float=1 tie=1 hole=1"),
    "pass": ("design", "pass IN short=0 long=0 float=0 tie=0 hole=0"),
    "compare": ("design", "compare IN IN --threads"),
    "threads": ("design", "threads IN"),
    "tie": ("design", "edit IN written.exp tie"),
    "bare": ("design", "edit IN written.exp bare"),
    "merge": ("design", "edit IN written.exp merge=100"),
    "five edits": ("design", "edit IN written.exp centre scale=50 cut=0 float=9 drop-empty"),
    "thumbnails": ("design", "edit IN written.pes thumbnails"),
    "picture": ("picture", "IN written.svg"),
    "plain": ("picture", "IN written.svg plain"),
    "hoop": ("picture", "IN written.svg 100 100"),
}


def unit(dx, dy):
    """A stitch by so many tenths to the right and upwards, at most 127."""
    return bytes((dx % 256, dy % 256))


def repeated(*units):
    """These units again and again."""
    whole = b"".join(units)
    return whole * (COUNT // len(units))


def square():
    """Needles at the four corners of a tenth."""
    return repeated(unit(1, 0), unit(0, 1), unit(-1, 0), unit(0, -1))


def one_hole():
    """Needles in one hole."""
    return repeated(unit(0, 0))


def strip():
    """Stitches of a tenth along 50 cm, there and back a hundred times."""
    return repeated(*[unit(1, 0)] * 4_999, unit(0, 0), *[unit(-1, 0)] * 4_999, unit(0, 0))


def bar():
    """The longest stitch there and back."""
    return repeated(unit(127, 0), unit(-127, 0))


def satin():
    """Satin 6 mm wide, its stitches half a tenth apart: columns of 40 cm."""
    column = (unit(60, 0) + unit(-60, 1)) * 4_000
    back = (unit(60, 0) + unit(-60, -1)) * 4_000
    return ((column + unit(70, 0) + back + unit(70, 0)) * (COUNT // 16_002 + 1))[:2 * COUNT]


def walk():
    """A random walk by at most a millimetre, turned back where it would leave the field."""
    chance = random.Random(10)
    units, at = [], [0, 0]
    for _ in range(COUNT):
        move = [chance.randint(-10, 10) for _ in at]
        move = [-by if abs(place + by) > REACH else by for place, by in zip(at, move)]
        at = [place + by for place, by in zip(at, move)]
        units.append(unit(*move))
    return b"".join(units)


def spiral():
    """A spiral of stitches of about 3 mm, its turns half a millimetre apart."""
    units, angle, at = [], 0.0, (0, 0)
    while len(units) < COUNT:
        radius = 20 + 5 * angle / (2 * math.pi)
        to = (round(radius * math.cos(angle)), round(radius * math.sin(angle)))
        units.append(unit(to[0] - at[0], to[1] - at[1]))
        at, angle = to, angle + 3 / radius
    return b"".join(units)


def trims():
    """A needle and a trim, again and again."""
    return repeated(unit(3, 0), TRIM, unit(-3, 0), TRIM)


def blocks():
    """255 blocks of needles three tenths apart, there and back."""
    sewn = (unit(3, 0) * 1_959 + unit(-3, 0) * 1_959) + unit(0, 3)
    return STOP.join([sewn] * 255)


def inputs():
    """The name, the ending and the bytes of each design."""
    yield "1,000,000 needles in one hole", "exp", one_hole()
    yield "a square of a tenth, 250,000 times", "exp", square()
    yield "stitches of a tenth along 50 cm, there and back", "exp", strip()
    yield "a stitch of 12.7 mm there and back", "exp", bar()
    yield "columns of satin, 6 mm wide", "exp", satin()
    yield "a random walk by at most 1 mm", "exp", walk()
    yield "a spiral of stitches of 3 mm", "exp", spiral()
    yield "500,000 needles, each with a trim", "exp", trims()
    yield "255 blocks, there and back", "exp", blocks()
