"""Runs both programs in turns, compares their results, and keeps their costs."""

import subprocess
from dataclasses import dataclass

from building import say
from places import BIN, INPUTS

# Rounds of a case in one pass over all cases. Passes are apart in time, so that other work of the
# machine, which begins and ends, doesn't fall on all rounds of a case.
ROUNDS = 3
PASSES = 5
# A case that takes more cpu seconds than this has one pass.
SLOW_SECONDS = 5.0


@dataclass(frozen=True)
class Outcome:
    """All that a caller can see of a run."""

    status: int
    out: bytes
    err: bytes
    written: bytes

    def differs_in(self, other):
        names = ("status", "out", "err", "written")
        return [name for name in names if getattr(self, name) != getattr(other, name)]


@dataclass
class Cost:
    cpu: float = float("inf")
    peak: float = 0.0

    def take(self, cpu, peak):
        self.cpu = min(self.cpu, cpu)
        self.peak = max(self.peak, peak)


class Different(Exception):
    """The two programs have different results."""


def meter(program, words):
    """Runs a program among the inputs: status, cpu seconds, peak MB, wall milliseconds."""
    run = [BIN / "meter", "out", "err", program, *words]
    told = subprocess.run(run, cwd=INPUTS, check=True, stdout=subprocess.PIPE).stdout
    status, cpu, peak, wall = (int(word) for word in told.split())
    return status, cpu / 1e6, peak / 1024, wall / 1e3


def run_once(program, case, cost):
    """The result of a run; the time and memory go into its cost."""
    written = INPUTS / case.output if case.output else None
    if written:
        written.unlink(missing_ok=True)
    status, cpu, peak, _ = meter(program, case.words)
    cost.take(cpu, peak)
    out, err = (INPUTS / "out").read_bytes(), (INPUTS / "err").read_bytes()
    kept = written.read_bytes() if written and written.exists() else b""
    return Outcome(status, out, err, kept)


def first_difference(a, b):
    for offset, (left, right) in enumerate(zip(a, b)):
        if left != right:
            return offset
    return min(len(a), len(b))


def describe(case, name, ours, theirs):
    ours, theirs = getattr(ours, name), getattr(theirs, name)
    line = f"{' '.join(case.words)}: {name} differs"
    if name == "status":
        return f"{line}: stitch {ours}, baseline {theirs}"
    offset = first_difference(ours, theirs)
    shown = slice(max(0, offset - 20), offset + 40)
    return (
        f"{line} at byte {offset}, lengths {len(ours)} and {len(theirs)}:\n"
        f"  stitch   {ours[shown]!r}\n  baseline {theirs[shown]!r}"
    )


def measure(case, programs, costs):
    """One pass of a case: some rounds in which both programs run."""
    for _ in range(ROUNDS):
        ours, theirs = [run_once(program, case, cost) for program, cost in zip(programs, costs)]
        parts = ours.differs_in(theirs)
        if parts:
            raise Different("\n".join(describe(case, part, ours, theirs) for part in parts))


def measure_all(cases, programs):
    """The costs of the cases that are equal, and the differences of all others."""
    costs = {case: (Cost(), Cost()) for case in cases}
    differences = {}
    for turn in range(PASSES):
        for case in cases:
            is_slow = turn > 0 and sum(cost.cpu for cost in costs[case]) > SLOW_SECONDS
            if is_slow or case in differences:
                continue
            try:
                measure(case, programs, costs[case])
            except Different as difference:
                differences[case] = difference
        say(f"pass {turn + 1} of {PASSES}: {len(differences)} of {len(cases)} cases differ")
    equal = [(case, costs[case]) for case in cases if case not in differences]
    return equal, list(differences.values())


def median(numbers):
    numbers = sorted(numbers)
    middle = len(numbers) // 2
    return (numbers[middle] + numbers[-middle - 1]) / 2


def starts_of(programs, times=20):
    """The median and the least wall time of a start without arguments, in milliseconds, in turns."""
    walls = [[] for _ in programs]
    for _ in range(times):
        for program, kept in zip(programs, walls):
            kept.append(meter(program, ())[3])
    return [(median(kept), min(kept)) for kept in walls]


def commands_of(name):
    """The commands of an input, as the baseline reads them."""
    meter(BIN / "baseline", ("show", name))
    for line in (INPUTS / "out").read_text().splitlines():
        if line.startswith("commands "):
            return int(line.split()[1])
    return 0
