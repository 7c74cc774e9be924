"""Designs: files of stitches."""
from __future__ import annotations

from dataclasses import dataclass, field
from functools import cached_property

from .arguments import Path, Setting, format_of, known, read, size_word, tenths, words_of, write
from .library import Refused, Reply, done
from .reports import Place, Record, filled, mm, number, parsed


@dataclass(frozen=True)
class Thread:
    """A thread by its number, with its name and its colour in the palette, as `Red` and `#ed171f`."""
    number: int | None
    name: str
    colour: str


@dataclass(frozen=True)
class Block:
    """What is sewn between two stops: its thread, and the lengths of that, of its shortest and of its longest stitch."""
    thread: Thread
    needles: int
    length_mm: float
    shortest_mm: float
    longest_mm: float


@dataclass(frozen=True)
class Fit:
    """How a design fits a hoop: `upright` or `turned`; or not, where `way` is empty, and by how much it is too large."""
    way: str
    too_large_mm: tuple[float, ...] = ()

    def __bool__(self) -> bool:
        return bool(self.way)


@dataclass(frozen=True)
class Design:
    """A design: the bytes of a file, and their format, which is one of FORMATS. They are read once something of them is asked for:
    that raises `Refused` if they are no such file. `report` has what the command printed that made the design."""
    data: bytes = field(repr=False)
    format: str
    report: Record = field(default_factory=dict, repr=False, compare=False)

    def __post_init__(self) -> None:
        known(self.format)
        if not isinstance(self.data, bytes):
            raise ValueError("a design has bytes: stitch.open reads a file")

    @classmethod
    def open(cls, path: Path) -> Design:
        """Reads a file, whose ending gives its format."""
        format = format_of(path)
        design = cls(read(path), format)
        _ = design.shown  # refused where it is no such file
        return design

    def save(self, path: Path, overwrite: bool = False) -> None:
        """Writes the design to a file, in the format that its ending gives."""
        format = format_of(path)
        write(path, (self if format == self.format else self.convert(format)).data, overwrite)

    @property
    def _name(self) -> str:
        return f"design.{self.format}"

    def _run(self, program: str, *words: str) -> Reply:
        return done(program, words, {self._name: self.data})

    def _made(self, format: str, program: str, command: str, words: list[str]) -> Design:
        out = f"made.{known(format)}"
        reply = self._run(program, command, self._name, out, *words)
        return Design(reply.files[out], format, parsed(reply.out)[0][-1])

    @cached_property
    def shown(self) -> Record:
        """What `stitch show` prints of the design, but for its blocks."""
        records, _ = parsed(self._run("stitch", "show", self._name).out)
        return {name: values for record in records if "block" not in record for name, values in record.items()}

    @cached_property
    def _looked(self) -> tuple[list[Record], tuple[Place, ...]]:
        return parsed(self._run("stitch_design", "look", self._name).out)

    @property
    def label(self) -> str:
        """The label."""
        return str(self.shown["label"][0])

    @property
    def stitches(self) -> int:
        """The number of needle penetrations."""
        return number(self.shown, "needles")

    @property
    def trims(self) -> int:
        """The number of trims."""
        return number(self.shown, "trims")

    @property
    def stops(self) -> int:
        """The number of colour stops."""
        return number(self.shown, "stops")

    @property
    def is_ended(self) -> bool:
        """Whether the file has its end, and so wasn't cut off."""
        return self.shown["ended"] == ("yes",)

    @property
    def size_mm(self) -> tuple[float, ...]:
        """The width and the height of the needles."""
        return mm(self._looked[0][0], "size")

    @cached_property
    def threads(self) -> tuple[Thread, ...]:
        """The thread of each block."""
        return threads_of(self._run("stitch_design", "threads", self._name))

    @property
    def blocks(self) -> tuple[Block, ...]:
        """The blocks, in the order in which they are sewn."""
        records = [record for record in self._looked[0] if "block" in record]
        return tuple(filled(Block, record, thread=thread) for thread, record in zip(self.threads, records))

    def places(self, **limits: Setting) -> tuple[Place, ...]:
        """The places that were probably not meant, by the limits of `stitch_design look`: lengths are millimetres."""
        return parsed(self._run("stitch_design", "look", self._name, *words_of(limits)).out)[1]

    def passes(self, **limits: Setting) -> bool:
        """Whether `stitch_design pass` finds none of these places, by the same limits."""
        _ = self.shown  # what can't be read is refused, and is no place
        try:
            self._run("stitch_design", "pass", self._name, *words_of(limits))
            return True
        except Refused:
            return False

    def compare(self, other: Design, threads: bool = False) -> Place | None:
        """The first difference from another design: of needles, floats, trims and stops and, where it is requested, of threads."""
        _ = self.shown, other.shown
        files = {f"this.{self.format}": self.data, f"other.{other.format}": other.data}
        try:
            done("stitch_design", ["compare", *files, *["--threads"] * threads], files)
            return None
        except Refused as why:
            return why.place

    def hoop(self, width: float, height: float) -> Fit:
        """How the design fits a hoop with these sides, in millimetres."""
        _ = self.shown
        try:
            reply = self._run("stitch", "hoop", self._name, str(tenths("width", width)), str(tenths("height", height)))
            return Fit(str(parsed(reply.out)[0][0]["fits"][0]))
        except Refused as why:
            return Fit("", tuple(length / 10 for length in why.place.numbers))

    def convert(self, format: str, split: bool = False, cut: bool = False) -> Design:
        """The design in a format. `split` splits stitches that are too long for it, `cut` replaces each float by a trim."""
        return self._made(format, "stitch", "convert", ["--split"] * split + ["--cut"] * cut)

    def edit(self, format: str | None = None, **edits: Setting) -> Design:
        """The design after edits, in their order, such as `tie=True`, `turn=1`, `mirror="x"`, `shift=(0, -2.5)` and
        `drop_empty=True`, in a format, which is its own if none is given. Lengths are millimetres."""
        return self._made(format or self.format, "stitch_design", "edit", words_of(edits))

    def picture(self, hoop: tuple[float, float] | None = None, plain: bool | str = False, size: tuple[int, int] | None = None) -> str:
        """The picture as SVG: in a hoop with these sides, or plain, on white or on a colour of six hexadecimal digits; of its true
        size or, in millimetres, of another."""
        words = [str(tenths("hoop", side)) for side in hoop or ()] + words_of({"plain": plain}) + size_word(size)
        return self._run("stitch_picture", self._name, "made.svg", *words).files["made.svg"].decode()


def palette() -> tuple[Thread, ...]:
    """The threads of the palette of Brother's PEC format."""
    return threads_of(done("stitch_design", ["threads"], {}))


def threads_of(reply: Reply) -> tuple[Thread, ...]:
    """The threads that a command printed."""
    return tuple(thread_of(record["thread"]) for record in parsed(reply.out)[0])


def thread_of(values: tuple[int | str, ...]) -> Thread:
    """The thread of the values that a line has for it, some of which may be missing."""
    number = next((value for value in values if isinstance(value, int)), None)
    texts = [value for value in values if isinstance(value, str)]
    return Thread(number, next((text for text in texts if text[0] != "#"), ""), next((text for text in texts if text[0] == "#"), ""))
