"""Routes beside a Chinese postman over LEMON: both programs in turns, and the totals compared."""

import shutil
import subprocess
from pathlib import Path

import counting
import machine
from building import say
from drawings import drawings
from measuring import Cost, meter
from places import BENCH, BIN, INPUTS
from tables import COUNTED, marked, table

ROUNDS = 5
SAMPLES = (5, 14, 15)
# The goal: a fifth of LEMON's time, the files and the certificate counted in.
HIGHEST_RATIO = 0.2
MISSING = "g++ or LEMON is missing (apt-get install g++ liblemon-dev)"


def can_measure():
    """Whether LEMON's headers and a compiler are here."""
    return shutil.which("g++") is not None and Path("/usr/include/lemon/matching.h").exists()


def build():
    say("building lemon")
    source = BENCH / "lemon" / "main.cpp"
    subprocess.run(["g++", "-O2", "-std=c++17", "-o", BIN / "lemon", source], check=True)


def totals_of(report):
    """What the pieces of a route retrace, and its penetrations, by its report."""
    rows = [row.split() for row in report.splitlines() if row.startswith("block ")]
    return [sum(int(row[row.index(word) + 1]) for row in rows) for word in ("retraced", "penetrations")]


def run(program, words, cost):
    status, cpu, peak, _ = meter(program, words)
    cost.take(cpu, peak)
    if status:
        raise SystemExit(f"bench: {program} {' '.join(words)}: status {status}")
    return (INPUTS / "out").read_text(), (INPUTS / "err").read_text()


def parts_of(told):
    """Odd junctions, and the cpu seconds of Dijkstra and of the matching."""
    odd, dijkstra, matching = (int(word) for word in told.split())
    return odd, dijkstra / 1e6, matching / 1e6


class Route:
    """One drawing, and what both programs took for it."""

    def __init__(self, name, lines, text):
        self.name, self.lines = name, lines
        self.ours, self.theirs = Cost(), Cost()
        self.odd, self.dijkstra, self.matching = 0, float("inf"), float("inf")
        self.penetrations, self.counts = 0, []
        self.file = f"{name.replace(',', '').replace(' ', '-')}-{lines}.rw"
        self.words = ("route", self.file, "written.pes", "written.cert")
        self.their_words = (self.file, "written.walks")
        (INPUTS / self.file).write_text(text)

    def measure(self, stitch):
        report, _ = run(stitch, self.words, self.ours)
        least, told = run(BIN / "lemon", self.their_words, self.theirs)
        self.odd, dijkstra, matching = parts_of(told)
        self.dijkstra, self.matching = min(self.dijkstra, dijkstra), min(self.matching, matching)
        totals, theirs = totals_of(report), [int(word) for word in least.split()]
        if totals != theirs:
            raise SystemExit(f"bench: {self.file}: retraced and penetrations {totals}, least {theirs}")
        self.penetrations = totals[1]

    def counted(self):
        """Millions of instructions of both programs and their ratio, where they were counted."""
        if not self.counts:
            return ["–", "–", "–"]
        ours, theirs = self.counts
        return [f"{ours / 1e6:,.3f}", f"{theirs / 1e6:,.3f}", marked(ours / theirs, HIGHEST_RATIO, 3)]

    def row(self):
        return [
            self.name,
            f"{self.lines:,}",
            f"{self.odd:,}",
            f"{self.penetrations:,}",
            *self.counted(),
            f"{self.ours.cpu * 1e3:.2f}",
            f"{self.theirs.cpu * 1e3:,.2f}",
            marked(self.ours.cpu / self.theirs.cpu, HIGHEST_RATIO, 3),
            f"{self.dijkstra * 1e3:.2f}",
            f"{self.matching * 1e3:,.2f}",
            f"{self.ours.peak:.1f}",
            f"{self.theirs.peak:.1f}",
        ]


HEADS = ["Drawing", "Lines", "Odd junctions", "Penetrations", COUNTED, "LEMON", "ratio"]
HEADS += ["Stitch, cpu ms", "LEMON, cpu ms", "ratio", "its Dijkstra, ms", "its matching, ms"]
HEADS += ["Stitch, peak MB", "LEMON, peak MB"]


def sample(stitch, number):
    """The sample drawing of a number, as the program writes it."""
    run(stitch, ("sample", str(number), "sample.rw"), Cost())
    return (INPUTS / "sample.rw").read_text()


def samples(stitch):
    """The name of each sample drawing, its number of lines, and its text."""
    for number in SAMPLES:
        text = sample(stitch, number)
        yield f"sample {number}", text.count("line "), text


def routes(stitch, word, lines):
    """The drawings of at most so many lines whose name has the word, each in a file."""
    INPUTS.mkdir(parents=True, exist_ok=True)
    all_drawings = [*samples(stitch), *drawings()]
    return [Route(*each) for each in all_drawings if word in f"route {each[0]}" and each[1] <= lines]


def count(chosen, stitch):
    """Counts the instructions of both programs, where there is valgrind."""
    if not counting.can_count():
        say(f"{counting.MISSING}: no instructions are counted")
        return
    say("counting instructions of routes")
    ours = counting.instructions_of_all([(stitch, route.words) for route in chosen])
    theirs = counting.instructions_of_all([(BIN / "lemon", route.their_words) for route in chosen])
    for route, *counts in zip(chosen, ours, theirs):
        route.counts = counts


def head(stitch):
    return (
        f"Program: commit {machine.commit(stitch)}. Processor: {machine.processor()}. LEMON by `g++ -O2`. "
        f"Date: {machine.date()}. Load of the machine at the start: {machine.load()}; times beside other work "
        "mean little, and instructions are the same."
    )


def report(chosen, stitch):
    """The table of routes. Fails where a total differs."""
    first = head(stitch)
    build()
    for turn in range(ROUNDS):
        for route in chosen:
            route.measure(stitch)
        say(f"routes, round {turn + 1} of {ROUNDS}: all totals are equal")
    count(chosen, stitch)
    return f"{first}\n\n{table(HEADS, [route.row() for route in chosen])}\n"
