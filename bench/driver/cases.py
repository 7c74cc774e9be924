"""The cases: the arguments of each, and the file that it writes."""

from dataclasses import dataclass
from typing import Optional

FORMATS = ["dst", "exp", "pec", "pes"]


@dataclass(frozen=True)
class Sizes:
    commands: tuple
    stops: int
    bytes: int
    places: tuple
    lines: int


FULL = Sizes((10_000, 100_000, 1_000_000), 100_000, 64 * 1024 * 1024, (64, 128, 256, 512, 1_024), 1_024)
SMALL = Sizes((1_000, 10_000, 100_000), 1_000, 1024 * 1024, (64, 128, 256), 256)
# What --check counts: rows of the full tables that take a minute.
CHECKED = Sizes((100_000,), 100_000, 64 * 1024 * 1024, (), 1_024)


@dataclass(frozen=True)
class Case:
    name: str
    words: tuple
    output: Optional[str] = None
    size: Optional[int] = None


def shows(size):
    for ext in FORMATS:
        yield Case(f"show {ext}", ("show", f"{size}.{ext}"), None, size)


def conversions(size):
    for source in FORMATS:
        for target in FORMATS:
            output = f"written.{target}"
            words = ("convert", f"{size}.{source}", output)
            yield Case(f"convert {source} to {target}", words, output, size)


def lists(size):
    """The stitch list, read and written."""
    for source, target in (("exp", "lst"), ("lst", "exp"), ("lst", "lst")):
        output = f"written.{target}"
        words = ("convert", f"{size}.{source}", output)
        yield Case(f"convert {source} to {target}", words, output, size)
    yield Case("show lst", ("show", f"{size}.lst"), None, size)


def refits(size):
    for flags in (("--split", "--cut"), ("--cut", "--split")):
        words = ("convert", f"wide-{size}.pes", "written.dst", *flags)
        yield Case(f"convert pes to dst {' '.join(flags)}", words, "written.dst", size)


def edits(size):
    for ext, edits in (
        ("dst", ("shift=40,-25",)),
        ("exp", ("turn=3",)),
        ("pec", ("mirror=x",)),
        ("pes", ("thread=2,9",)),
        ("pes", ("shift=-7,11", "turn=1", "thread=1,7")),
    ):
        output = f"written.{ext}"
        words = ("edit", f"{size}.{ext}", output, *edits)
        yield Case(f"edit {ext} {' '.join(edits)}", words, output, size)


def hoops(size):
    for ext, width in (("dst", 60_000), ("pes", 10)):
        words = ("hoop", f"{size}.{ext}", str(width), str(width))
        yield Case(f"hoop {ext} {width} {width}", words, None, size)


def others():
    """The cases that don't come in three sizes."""
    yield Case("show stops.exp", ("show", "stops.exp"))
    yield Case("convert stops.exp to exp", ("convert", "stops.exp", "written.exp"), "written.exp")
    for kind in ("hostile", "zeros"):
        for ext in (*FORMATS, "lst"):
            yield Case(f"show {kind}.{ext}", ("show", f"{kind}.{ext}"))


def all_cases(sizes):
    for size in sizes.commands:
        for family in (shows, conversions, lists, refits, edits, hoops):
            yield from family(size)
    yield from others()
