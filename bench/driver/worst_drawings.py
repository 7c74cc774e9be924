"""The worst drawings at the limits that we could find, and the commands on drawings."""

import math
import random

import drawings
from choices import meander, spiral

STEP = 121
# The program and the words of each command: IN is the drawing. What it writes has the name `written`.
COMMANDS = {
    "look": ("drawing", "look IN"),
    "look 10": ("drawing", "look IN 10"),
    "look 20": ("drawing", "look IN 20"),
    "snap": ("drawing", "snap 2 IN written.rw"),
    "cross": ("drawing", "cross IN written.rw"),
    "space": ("drawing", "space IN written.rw"),
    "free": ("drawing", "free IN written.rw"),
    "near": ("drawing", "near IN written.rw"),
    "picture": ("picture", "IN written.svg"),
    "route": ("stitch", "route IN written.dst written.cert"),
}


def zigzag():
    """65,472 points on the four corners of a square."""
    corners = [(0, 0), (100, 0), (100, 100), (0, 100)]
    return [[corners[i % 4] for i in range(64)] for _ in range(1_023)]


def diagonals(width, height):
    """26,000 segments beside each other, and as many back."""
    points = []
    for i in range(26_000):
        points += [(i - 29_000, -3_000), (i - 29_000 + width, height - 3_000)]
    return [points]


def scattered(lines, size):
    """Parts of that many segments of lines, in random order."""
    parts = [line[at:at + size + 1] for line in lines for at in range(0, len(line) - 1, size)]
    random.Random(7).shuffle(parts)
    return parts


def spokes():
    """26,000 segments from a place to the nearest points that it sees, and as many back, in lines of 26 points."""
    seen = [(x, y) for x in range(-120, 121) for y in range(-120, 121) if math.gcd(x, y) == 1]
    nearest = sorted(seen, key=lambda point: (math.hypot(*point), point))[:26_000]
    return [[place for end in nearest[at:at + 26] for place in ((0, 0), end)] + [(0, 0)] for at in range(0, 26_000, 26)]


def parallels():
    """1,024 long lines, 3 tenths apart."""
    return [[(3 * i, 0), (3 * i + 3_000, 5_000)] for i in range(drawings.LINES)]


def weave():
    """512 lines across 512 others."""
    size = drawings.LINES // 2
    across = [[(0, 10 * i), (10 * size, 10 * i)] for i in range(size)]
    return across + [[(10 * i, -5), (10 * i, 10 * size + 1)] for i in range(size)]


def tangle():
    """1,024 long lines at random."""
    chance = random.Random(5)
    return [[(chance.randint(0, 3_000), chance.randint(0, 3_000)) for _ in range(2)] for _ in range(drawings.LINES)]


def nested():
    """1,024 lines on one line, each a tenth longer at both ends."""
    return [[(-i, 0), (i, 0)] for i in range(1, drawings.LINES + 1)]


def walks():
    """1,024 random walks of 64 points, far from each other but now and then."""
    chance = random.Random(6)
    lines = []
    for i in range(drawings.LINES):
        x, y = 900 * (i % 32) - 14_000, 900 * (i // 32) - 14_000
        points = [(x, y)]
        while len(points) < 64:
            x, y = x + chance.randint(-100, 100), y + chance.randint(-100, 100)
            if (x, y) != points[-1]:
                points.append((x, y))
        lines.append(points)
    return lines


def star():
    """1,024 strokes from one place."""
    angles = [2 * math.pi * i / drawings.LINES for i in range(drawings.LINES)]
    return [[(0, 0), (int(2_300 * math.cos(a)), int(2_300 * math.sin(a)))] for a in angles]


def alike():
    """One line 1,024 times."""
    return [[(0, 0), (50, 0)] for _ in range(drawings.LINES)]


def worst():
    """The name, the version and the blocks of each drawing."""
    square = [[(0, 0), (100, 0), (100, 100), (0, 100), (0, 0)]]
    yield "a zigzag of 65,472 points on four places", 1, [zigzag()]
    yield "52,000 segments beside each other, 6 across 1", 2, [diagonals(363, 60)]
    yield "the same in 1,000 lines, in random order", 2, [scattered(diagonals(363, 60), 52)]
    yield "52,000 segments beside each other, 36 across 1", 2, [diagonals(363, 10)]
    yield "26,000 spokes to points that a place sees", 1, [spokes()]
    yield "1,024 parallel diagonals", 2, [parallels()]
    yield "a weave of 512 lines by 512", 2, [weave()]
    yield "a tangle of 1,024 lines", 2, [tangle()]
    yield "1,024 lines on one line", 2, [nested()]
    yield "1,024 random walks", 1, [walks()]
    yield "the same in random order", 1, [scattered(walks(), 64)]
    yield "one line 1,024 times", 2, [alike()]
    yield "255 squares on one place, a block each", 2, [square] * 255
    yield "a star of 1,024 strokes", 2, [star()]
    yield "a comb of 1,023 lines", 1, [drawings.comb(1_023)]
    yield "a spiral of 65,536 points, a tenth apart", 2, [spiral()]
    yield "a meander of 65,536 points, a tenth apart", 2, [meander(100, 3)]


def inputs():
    """The name, the ending and the bytes of each drawing."""
    for name, version, blocks in worst():
        text = drawings.meeting_text(blocks, STEP).replace("redwork 3", f"redwork {version}", 1)
        yield name, "rw", text.encode()
