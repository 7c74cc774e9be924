"""The commands of stitch_drawing that choose points, ends and orders, over drawings at the limits: what each prints last,
and its instructions."""

import math
import random
import subprocess

import counting
import drawings
from building import say
from places import INPUTS
from tables import table

POINTS = 65_536
TENTH = 1


def spiral():
    """A spiral of points that are about a tenth apart, its turns 2 mm."""
    points, angle = [], 0.0
    while len(points) < POINTS:
        radius = 200 + 3 * angle
        point = (int(radius * math.cos(angle)), int(radius * math.sin(angle)))
        if not points or point != points[-1]:
            points.append(point)
        angle += 0.9 / radius
    return [points]


def meander(height, apart):
    """Up and down by a height in tenths, with a way between, of points that are a tenth apart."""
    points, x, up = [], -25_000, True
    while len(points) < POINTS:
        column = range(0, height + 1) if up else range(height, -1, -1)
        points += [(x, y) for y in column] + [(x + k, height if up else 0) for k in range(1, apart)]
        x, up = x + apart, not up
    return [points[:POINTS]]


def scattered(pieces):
    """Lines of 5 mm at random places, none of which meet."""
    chance = random.Random(7)
    places = [(60 * i, 60 * j) for i in range(40) for j in range(40)]
    return [[(x, y), (x + 50, y)] for x, y in chance.sample(places, pieces)]


def in_version_2(lines, step):
    return drawings.meeting_text([lines], step).replace("redwork 3", "redwork 2", 1)


def runs():
    """The words of each command, its drawing's name and text."""
    loops = drawings.meeting_text([drawings.loops(drawings.LINES, 16, 20)], 20)
    line = [[(x, 0) for x in range(-29_500, 29_500)]]
    yield ("space", "", "65,536 points in 1,024 closed lines", loops)
    yield ("space", "leeway=10", "59,000 points on a straight line, a tenth apart", in_version_2(line, 100))
    yield ("space", "leeway=1", "a spiral of 65,536 points, a tenth apart", in_version_2(spiral(), 100))
    yield ("space", "leeway=6", "a meander of 65,536 points, a tenth apart", in_version_2(meander(100, 3), 100))
    yield ("free", "", "65,536 points in 1,024 closed lines", loops)
    yield ("free", "", "a star of 1,022 strokes", in_version_2(drawings.star(1_022, 1, 100), 10))
    yield ("free", "", "a planar drawing of 1,024 lines", in_version_2(drawings.planar(drawings.LINES), 10))
    yield ("near", "", "65,536 points in 1,024 closed lines", loops)
    yield ("near", "", "200 lines at random places", in_version_2(scattered(200), 25))
    yield ("near", "", "1,024 lines at random places", in_version_2(scattered(drawings.LINES), 25))


def measured(program, command, more, text):
    """The last line that a command prints, and its millions of instructions."""
    INPUTS.mkdir(parents=True, exist_ok=True)
    (INPUTS / "chosen.rw").write_text(text)
    words = [command, "chosen.rw", "written.rw", *more.split()]
    report = subprocess.run([program, *words], cwd=INPUTS, stdout=subprocess.PIPE, text=True, check=True).stdout
    return report.splitlines()[-1], counting.instructions_of(program, words) / 1e6


def report(program):
    """The table of all these commands."""
    rows = []
    for command, more, name, text in runs():
        say(f"{command} of {name}")
        last, millions = measured(program, command, more, text)
        rows.append((f"`{command} {more}`".replace(" `", "`"), name, f"`{last}`", f"{millions:.1f}"))
    return table(("Command", "Drawing", "Last line of its report", "Instructions, million"), rows)
