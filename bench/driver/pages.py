"""Runs the cases in the page beside the built program, and prints the times of both and the memory of the page."""

import argparse
import sys
import tempfile
from pathlib import Path

import building
import machine
from cases import FULL, SMALL, Case, all_cases
from drawings import drawings
from measuring import meter
from places import BIN, INPUTS, REPOSITORY
from tables import table

sys.path.insert(0, str(REPOSITORY / ".ci"))
from page_browser import By, Page  # noqa: E402

ROUNDS = 5
# The goal: in the page a run takes at most so many times what the built program takes, and so many MB.
HIGHEST_RATIO, HIGHEST_MEMORY = 2.5, 1_000
# Runs `stitch` in the page on files that an input element was given, and returns how long it took and its memory.
RUN = """const [words, done] = arguments, input = document.querySelector('#measured');
Promise.all([...input.files].map(async file => ({ name: file.name, bytes: new Uint8Array(await file.arrayBuffer()) })))
    .then(files => window.stitch.run('stitch', words, files))
    .then(reply => done([reply.outcome, reply.milliseconds, reply.memory]), why => done([String(why), 0, 0]));"""
INPUT = """document.body.append(Object.assign(document.createElement('input'), { id: 'measured', type: 'file' }));"""


def words():
    parser = argparse.ArgumentParser(prog="bench/page")
    parser.add_argument("page", type=Path, help="the page that make page writes")
    parser.add_argument("--stitch", type=Path, required=True, help="the built program")
    parser.add_argument("--sizes", choices=["full", "small"], default="full")
    parser.add_argument("--only", default="", metavar="WORD", help="cases whose name has this word")
    return parser.parse_args()


def routes():
    """The routes of the drawings, whose files are made."""
    for number, (name, lines, text) in enumerate(drawings()):
        file = f"drawing-{number}.rw"
        (INPUTS / file).write_text(text)
        yield Case(f"route {name}, {lines:,} lines", ("route", file, "written.pes", "written.cert"))


def in_page(page, case):
    """The status, the milliseconds and the MB of the quickest run in the page."""
    page.driver.find_element(By.ID, "measured").send_keys(str(INPUTS / case.words[1]))
    runs = [page.driver.execute_async_script(RUN, list(case.words)) for _ in range(ROUNDS)]
    page.driver.execute_script("document.querySelector('#measured').value = '';")
    status, milliseconds, memory = min(runs, key=lambda run: run[1])
    return status, milliseconds, memory / 1e6


def built(stitch, case):
    """The status and the milliseconds of the quickest run of the built program, with the start of its process."""
    runs = [meter(stitch, case.words) for _ in range(ROUNDS)]
    return runs[0][0], min(wall for *_, wall in runs)


def row(page, stitch, case):
    """The row of a case: its name, both times, their ratio, and the memory of the page."""
    status, ours = built(stitch, case)
    found, milliseconds, memory = in_page(page, case)
    if found != status:
        raise SystemExit(f"bench: {case.name}: status {found} in the page, {status} as it is built")
    ratio = milliseconds / ours
    bold = "**" if ratio > HIGHEST_RATIO or memory > HIGHEST_MEMORY else ""
    size = f", {case.size:,} commands" if case.size else ""
    return [f"{case.name}{size}", f"{ours:.1f}", f"{milliseconds:.1f}", f"{bold}{ratio:.2f}{bold}", f"{memory:.0f}"]


def main():
    asked = words()
    sizes = FULL if asked.sizes == "full" else SMALL
    for program in ("inputs", "meter"):
        building.build_plain(program)
    building.make_inputs(sizes)
    stitch = asked.stitch.resolve()
    cases = [case for case in [*all_cases(sizes), *routes()] if asked.only in case.name]
    with tempfile.TemporaryDirectory() as saved:
        page = Page(asked.page.resolve(), saved, (1280, 900))
        try:
            page.driver.execute_script(INPUT)
            rows = [row(page, stitch, case) for case in cases]
        finally:
            page.driver.quit()
    print(f"Processor: {machine.processor()}. Kit: {machine.kit()}. Date: {machine.date()}.\n")
    print(table(["Case", "built, ms", "page, ms", "ratio", "page, MB"], rows))


if __name__ == "__main__":
    main()
