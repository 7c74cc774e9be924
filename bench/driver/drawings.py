"""Drawings to route, the same at each run: trees, bricks, chains, random graphs and many small parts within the
limits of a drawing. Each is the text of a drawing."""

import math
import random

LINES = 1_024
SQUARE = [(0, 0), (1, 0), (1, 1), (0, 1)]
SQUARE_OF_SIXTY = [(60 * x, 60 * y) for x, y in SQUARE]


def rows_of(lines):
    return ["line " + " ".join(f"{x} {y}" for x, y in points) for points in lines]


def text_of(lines, step):
    """The drawing of lines, each a list of points. They meet at their ends."""
    return "\n".join(["redwork 1", f"step {step}", "color 1", *rows_of(lines)]) + "\n"


def meeting_text(blocks, step):
    """The drawing of blocks of lines. They meet at each point that a block lists more than once."""
    rows = ["redwork 3", f"step {step}"]
    for number, lines in enumerate(blocks):
        rows += [f"color {number % 8}", *rows_of(lines)]
    return "\n".join(rows) + "\n"


def star(lines, least, greatest):
    """Strokes of the given numbers of steps that meet in the middle, each to a point of its own."""
    chance = random.Random(1)
    return [[(0, 0), (10 * chance.randint(least, greatest), i - lines // 2)] for i in range(lines)]


def comb(lines):
    """A spine with a tooth at each of its junctions."""
    chance = random.Random(2)
    teeth = (lines + 1) // 2
    xs = [0]
    for _ in range(teeth - 1):
        xs.append(xs[-1] + chance.randint(10, 50))
    spine = [[(a, 0), (b, 0)] for a, b in zip(xs, xs[1:])]
    return spine + [[(x, 0), (x, chance.randint(10, 190))] for x in xs]


def bricks(lines):
    """Courses of a wall: each junction has three lines, but for the rim."""
    side = 26
    along = [((i, j), (i + 1, j)) for j in range(side) for i in range(side - 1)]
    up = [((i, j), (i, j + 1)) for j in range(side - 1) for i in range(side) if (i + j) % 2 == 0]
    return [[(20 * ax, 20 * ay), (20 * bx, 20 * by)] for (ax, ay), (bx, by) in (along + up)[:lines]]


def planar(lines):
    """Lines between neighbours in a grid of moved points: a tree of all points, and further lines."""
    chance = random.Random(3)
    side = math.isqrt(lines * 15 // 16)
    nodes = [(i, j) for j in range(side) for i in range(side)]
    place = {(i, j): (200 * i + chance.randint(0, 90), 200 * j + chance.randint(0, 90)) for i, j in nodes}
    pairs = [((i, j), to) for i, j in nodes for to in ((i + 1, j), (i, j + 1)) if to in place]
    chance.shuffle(pairs)
    tree = list(spanning(nodes, pairs))
    kept = set(tree)
    more = [pair for pair in pairs if pair not in kept]
    return [[place[a], place[b]] for a, b in (tree + more)[:lines]]


def spanning(nodes, pairs):
    """The pairs that connect parts which earlier pairs didn't connect."""
    part = {node: node for node in nodes}

    def root(node):
        while part[node] != node:
            part[node] = part[part[node]]
            node = part[node]
        return node

    for a, b in pairs:
        if root(a) != root(b):
            part[root(a)] = root(b)
            yield a, b


def cubic(lines):
    """A random graph of three lines a junction; a line bends so that its cost is drawn apart from its ends."""
    chance = random.Random(4)
    count = lines * 2 // 3 // 2 * 2
    stubs = [node for node in range(count) for _ in range(3)]
    place = [(chance.randint(-9_000, 9_000), chance.randint(-9_000, 9_000)) for _ in range(count)]
    while True:
        chance.shuffle(stubs)
        pairs = list(zip(stubs[0::2], stubs[1::2]))
        if all(a != b for a, b in pairs):
            return [[place[a], place[b]] for a, b in pairs]


def motif(chance, x, y):
    """A square of four lines with a diagonal and a tail."""
    corners = [(x + 100 * i + chance.randint(0, 40), y + 100 * j + chance.randint(0, 40)) for i, j in SQUARE]
    sides = [[a, b] for a, b in zip(corners, corners[1:] + corners[:1])]
    return [*sides, [corners[0], corners[2]], [corners[1], (x + 180, y + chance.randint(0, 140))]]


def motifs(count):
    """Motifs in rows, none of which meet."""
    chance = random.Random(5)
    return [line for i in range(count) for line in motif(chance, 200 * (i % 16), 200 * (i // 16))]


def square_blocks(count):
    """Blocks of one square, of four lines, with a tail to the left of it."""
    chance = random.Random(6)
    blocks = []
    for i in range(count):
        x, y, side = 200 * (i % 16), 200 * (i // 16), chance.randint(30, 120)
        corners = [(x + side * i, y + side * j) for i, j in SQUARE]
        blocks.append([[*corners, corners[0]], [(x - chance.randint(10, 60), y), corners[0]]])
    return blocks


def loop(x, y, side, step):
    """A closed square without one of its corners, of points that are a step apart."""
    along = range(side)
    points = [(i, 0) for i in along] + [(side, i) for i in along]
    points += [(side - i, side) for i in along] + [(0, side - i) for i in along]
    return [(x + step * i, y + step * j) for i, j in (*points[1:], points[1])]


def loops(count, side, step):
    """Closed lines in rows, none of which meet."""
    apart = (side + 2) * step
    return [loop(apart * (i % 32), apart * (i // 32), side, step) for i in range(count)]


def chain(lines, steps):
    """Lines of the given number of steps of one unit, up and down, each from the end of the one before it."""
    ends = [(steps // 4 * (i - lines // 2), steps * (i % 2)) for i in range(lines + 1)]
    return [[a, b] for a, b in zip(ends, ends[1:])]


def small_drawings():
    """Drawings whose time is that of the start and of the files."""
    yield "one closed line", 1, meeting_text([[[*SQUARE_OF_SIXTY, SQUARE_OF_SIXTY[0]]]], 20)
    yield "170 small pieces", 1_020, meeting_text([motifs(170)], 25)
    yield "255 blocks", 510, meeting_text(square_blocks(255), 25)


def long_drawings():
    """Drawings with as many points and steps as one can have."""
    yield "closed lines of 64 points", LINES, meeting_text([loops(LINES, 16, 20)], 20)
    yield "chain of 200,000 steps", 1_000, meeting_text([chain(1_000, 200)], 1)


def drawings():
    """The name of each drawing, its number of lines, and its text."""
    yield from small_drawings()
    yield from long_drawings()
    for lines in (LINES // 4, LINES // 2, LINES):
        yield "star of equal strokes", lines, text_of(star(lines, 60, 60), 10)
        yield "star of varied strokes", lines, text_of(star(lines, 60, 190), 10)
        yield "comb", lines - 1, text_of(comb(lines - 1), 1)
        yield "planar drawing", lines, text_of(planar(lines), 50)
    yield "bricks", 975, text_of(bricks(975), 20)
    yield "random cubic graph", 1_023, text_of(cubic(1_023), 150)
