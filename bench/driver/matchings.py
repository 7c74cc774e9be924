"""Matchings of tables beside LEMON: both programs in turns, and the totals compared."""

import math
import struct
import subprocess

import kept
import machine
from building import say
from distances import KINDS, table_of
from measuring import Cost
from places import BENCH, BIN, INPUTS
from routes import run
from tables import marked, table

ROUNDS = 3
LARGEST = 1_024
# How often the largest table is matched in a run. A smaller one is matched more often.
OUR_TIMES, THEIR_TIMES = 4, 1
# The goals: a fifth of LEMON's time, a growth by n to the power of 2.3, and no more memory.
HIGHEST_RATIO = 0.2
HIGHEST_POWER = 2.3
HIGHEST_MEMORY = 1.0


def build():
    """Both programs: ours over blossom_match as it is here, and LEMON's."""
    say("building match_table and lemon_table")
    libraries = [*kept.stands_on()["blossom_match"], "blossom_match"]
    ours = kept.built(BENCH / "matching" / "match_table", libraries)
    source = BENCH / "matching" / "lemon_table.cpp"
    subprocess.run(["g++", "-O2", "-std=c++17", "-o", BIN / "lemon_table", source], check=True)
    return ours, BIN / "lemon_table"


class Side:
    """One program with one table: the cost of reading it alone, and of also matching it the given number of times."""

    def __init__(self, times):
        self.times = times
        self.reading, self.whole = Cost(), Cost()

    def measure(self, program, file):
        """The cost of the pairs."""
        run(program, (file, "0"), self.reading)
        return int(run(program, (file, str(self.times)), self.whole)[0])

    def millis(self):
        return max(0.0, self.whole.cpu - self.reading.cpu) * 1_000 / self.times


class Matching:
    """One table, and what both programs took for it."""

    def __init__(self, kind, places):
        self.kind, self.places = kind, places
        more = (LARGEST // places) ** 2
        self.sides = Side(OUR_TIMES * more), Side(THEIR_TIMES * more)
        self.file = f"{kind.replace(',', '').replace(' ', '-')}-{places}.table"
        rows = table_of(kind, places)
        numbers = [len(rows)] + [distance for row in rows for distance in row]
        (INPUTS / self.file).write_bytes(struct.pack(f"<{len(numbers)}I", *numbers))

    def measure(self, programs):
        ours, theirs = [side.measure(program, self.file) for side, program in zip(self.sides, programs)]
        if ours != theirs:
            raise SystemExit(f"bench: {self.file}: {ours} matched, least {theirs}")

    def row(self):
        ours, theirs = self.sides
        return [
            self.kind,
            f"{self.places:,}",
            f"{theirs.millis():.3f}",
            f"{ours.millis():.3f}",
            marked(ours.millis() / theirs.millis(), HIGHEST_RATIO, 3),
            f"{theirs.whole.peak:.1f}",
            f"{ours.whole.peak:.1f}",
            marked(ours.whole.peak / theirs.whole.peak, HIGHEST_MEMORY),
        ]


HEADS = ["Table", "n", "LEMON, ms", "Stitch, ms", "ratio", "LEMON, peak MB", "Stitch, peak MB", "ratio"]


def power(low, high):
    """By which power of n the time grows between two sizes."""
    if not low.millis() or not high.millis():
        return math.inf
    return math.log(high.millis() / low.millis())


def growth_table(matchings):
    """The power of n by which the time grows from 256 vertices to 1,024."""
    sides = {(each.kind, each.places): each.sides for each in matchings}
    rows = []
    for kind in KINDS:
        if (kind, 256) in sides and (kind, LARGEST) in sides:
            pairs = zip(sides[kind, 256], sides[kind, LARGEST])
            ours, theirs = [power(low, high) / math.log(LARGEST / 256) for low, high in pairs]
            rows.append([kind, f"{theirs:.2f}", marked(ours, HIGHEST_POWER)])
    return table(["Table", "LEMON", "Stitch"], rows)


def head():
    return (
        f"Processor: {machine.processor()}. Kit: {machine.kit()}. LEMON by `g++ -O2`. Date: {machine.date()}. "
        f"Load of the machine at the start: {machine.load()}."
    )


def report(kinds, sizes):
    """The tables of matchings. Fails where a total differs."""
    programs = build()
    first = head()
    say("making tables")
    INPUTS.mkdir(parents=True, exist_ok=True)
    matchings = [Matching(kind, places) for kind in kinds for places in sizes]
    for turn in range(ROUNDS):
        for matching in matchings:
            matching.measure(programs)
        say(f"matchings, round {turn + 1} of {ROUNDS}: all totals are equal")
    parts = [first, table(HEADS, [matching.row() for matching in matchings])]
    if LARGEST in sizes:
        parts += ["Growth from 256 vertices to 1,024, as a power of n:", growth_table(matchings)]
    return "\n\n".join(parts) + "\n"
