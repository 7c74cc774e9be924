"""Builds, makes inputs, measures, and prints the numbers."""

import argparse
import functools
import sys
from pathlib import Path

import building
import checking
import choices
import counting
import document
import machine
import matchings
import measuring
import routes
import tables
import worst
from building import say
from cases import FULL, SMALL, all_cases
from distances import KINDS
from places import BIN, BUILT


def words():
    parser = argparse.ArgumentParser(prog="bench/run")
    parser.add_argument("--sizes", choices=["full", "small"], default="full")
    parser.add_argument("--stitch", type=Path, help="a program built elsewhere")
    for name in ("drawing", "design", "picture"):
        parser.add_argument(f"--{name}", type=Path, help=f"a stitch_{name} built elsewhere")
    parser.add_argument("--only", default="", metavar="WORD", help="cases whose name has this word")
    parser.add_argument("--check", action="store_true", help="counts instructions, and compares them with the tables")
    return parser.parse_args()


def head():
    return (
        f"Processor: {machine.processor()}. Kit: {machine.kit()}. Baseline: {machine.rustc()}, `-O`. "
        f"Date: {machine.date()}. Load of the machine at the start: {machine.load()}. The times move with "
        "the processor, and the instructions don't."
    )


def program(asked, name):
    """A program that is measured, by its short name: the one that is named, or the one that is built here."""
    path = getattr(asked, name)
    return path.resolve() if path else built(name)


@functools.cache
def built(name):
    """A program, proved and built once."""
    building.build_program(BUILT[name].name)
    return BUILT[name]


def programs(asked):
    """All programs that are measured."""
    return {name: program(asked, name) for name in BUILT}


def measure_routes(asked, sizes):
    """The table of routes, of those whose name has the word. It is kept where it has all of them."""
    if not asked.only or asked.only.startswith("route"):
        stitch = program(asked, "stitch")
        text = routes.report(routes.routes(stitch, asked.only, sizes.lines), stitch)
        print(text)
        if sizes is FULL and asked.only in ("", "route"):
            document.put(text, "routes")


def measure_matchings(asked, sizes):
    """The tables of matchings, of those whose name has the word."""
    kinds = [kind for kind in KINDS if asked.only in f"match {kind}"]
    if kinds:
        text = matchings.report(kinds, sizes.places)
        print(text)
        if sizes is FULL and not asked.only:
            document.put(text, "matchings")


def measure_choices(asked):
    """The table of the commands that choose points, ends and orders."""
    if not counting.can_count():
        say(f"{counting.MISSING}: `space`, `free` and `near` are left out")
        return
    text = choices.report(program(asked, "drawing"))
    print(text)
    document.put(text, "choices")


def measure_worst(asked):
    """The tables of all commands over the worst inputs."""
    text = worst.report(programs(asked))
    print(text)
    document.put(text, "worst")


def measure_files(asked, sizes, cases):
    """The tables of the file commands, and whether some case differs."""
    stitch = program(asked, "stitch")
    building.build_plain("baseline")
    building.build_plain("inputs")
    building.make_inputs(sizes)

    first = head()
    programs = {"`stitch`": stitch, "plain": BIN / "baseline", "`/bin/true`": Path("/bin/true")}
    starts = list(zip(programs, measuring.starts_of(programs.values())))
    measured, differences = measuring.measure_all(cases, (stitch, BIN / "baseline"))
    counts = counting.count_all([case for case, _ in measured], (stitch, BIN / "baseline"))
    text = tables.report(first, sizes, starts, measured, counts, measuring.commands_of)
    print(text)
    if differences:
        for difference in differences:
            say(str(difference))
        say(f"{len(differences)} cases differ, {len(measured)} are equal")
        return True
    if sizes is FULL and not asked.only:
        document.put(text, "measured")
    say(f"all {len(measured)} cases are equal")
    return False


def main():
    asked = words()
    sizes = SMALL if asked.sizes == "small" else FULL
    building.build_plain("meter")
    if asked.check:
        return checking.check(programs(asked))
    if sizes is FULL and asked.only in ("", "choices"):
        measure_choices(asked)
    if sizes is FULL and asked.only in ("", "worst"):
        measure_worst(asked)
    cases = [case for case in all_cases(sizes) if asked.only in case.name]
    if cases and measure_files(asked, sizes, cases):
        return 1
    if not routes.can_measure():
        say(f"{routes.MISSING}: routes and matchings are left out")
        return 0
    measure_routes(asked, sizes)
    measure_matchings(asked, sizes)
    return 0


if __name__ == "__main__":
    sys.exit(main())
