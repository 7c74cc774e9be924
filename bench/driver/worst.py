"""The worst inputs at the limits that we could find: the seconds that each command takes over them, and the instructions over
the worst of them."""

from dataclasses import dataclass

import counting
import worst_designs
import worst_drawings
from building import say
from measuring import meter
from places import INPUTS
from tables import COUNTED, marked, table

HIGHEST_SECONDS = 0.5
ROUNDS = 3
KINDS = {"Drawing": worst_drawings, "Design": worst_designs}


@dataclass(frozen=True)
class Run:
    """A command over an input of a kind: the program, and its words."""

    kind: str
    command: str
    name: str
    program: object
    words: tuple


@dataclass(frozen=True)
class Cost:
    """The least processor seconds of some runs, and whether the input is refused."""

    seconds: float
    is_refused: bool

    def shown(self):
        least = marked(self.seconds, HIGHEST_SECONDS)
        return f"{least} r" if self.is_refused else least


def all_runs(programs):
    """All commands over all inputs, whose files are made."""
    INPUTS.mkdir(parents=True, exist_ok=True)
    for kind, source in KINDS.items():
        for number, (name, ending, content) in enumerate(source.inputs(), 1):
            file = f"worst-{number}.{ending}"
            (INPUTS / file).write_bytes(content)
            for command, (program, words) in source.COMMANDS.items():
                named = tuple(file if word == "IN" else word for word in words.split())
                yield Run(kind, command, name, programs[program], named)


def cost_of(run):
    rounds = [meter(run.program, run.words) for _ in range(ROUNDS)]
    return Cost(min(cost[1] for cost in rounds), rounds[0][0] != 0)


def seconds_table(kind, costs):
    """The seconds of each command of a kind, an input a row."""
    rows = {}
    for run, cost in costs.items():
        if run.kind == kind:
            rows.setdefault(run.name, []).append(cost.shown())
    return table([kind, *KINDS[kind].COMMANDS], [[name, *shown] for name, shown in rows.items()])


def slowest(costs):
    """The run of each command over the input that it takes longest for."""
    runs = {}
    for run, cost in costs.items():
        before = runs.get((run.kind, run.command))
        if before is None or cost.seconds > costs[before].seconds:
            runs[run.kind, run.command] = run
    return list(runs.values())


def counted(runs):
    """Millions of instructions of each run."""
    say(f"counting instructions of {len(runs)} runs over the worst inputs")
    counts = counting.instructions_of_all([(run.program, run.words) for run in runs])
    return {run: count / 1e6 for run, count in zip(runs, counts)}


def count_table(counts, costs):
    rows = [[run.command, run.name, costs[run].shown(), f"{count:.1f}"] for run, count in counts.items()]
    return table(["Command", "Input", "Seconds", COUNTED], rows)


def report(programs):
    """The tables of all commands over all inputs, and of the worst input of each command. Refused inputs have an r."""
    costs = {}
    for run in all_runs(programs):
        if not any(run.name == before.name for before in costs):
            say(f"timing: {run.name}")
        costs[run] = cost_of(run)
    parts = [seconds_table(kind, costs) for kind in KINDS]
    if counting.can_count():
        parts.append(count_table(counted(slowest(costs)), costs))
    return "\n\n".join(parts)
