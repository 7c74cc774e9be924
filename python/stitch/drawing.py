"""Drawings: texts of the lines that are to be sewn, and their routes."""
from __future__ import annotations

import re
from dataclasses import dataclass, field
from functools import cached_property
from typing import Sequence

from .arguments import Path, Setting, read, size_word, tenths, words_of, write
from .design import Design
from .library import Refused, done
from .reports import Place, Record, filled, mm, number, parsed
from .steps import STEPS


@dataclass(frozen=True)
class Piece:
    """A piece of a drawing, lines that are connected, by the number of its block and its own: the numbers of its lines, junctions,
    odd junctions, stitches, and stitches below 1 mm, and the lengths of its shortest and longest stitch, of its thread, and of the
    way to it from the piece before."""
    block: int
    piece: int
    lines: int
    junctions: int
    odd: int
    stitches: int
    shortest_mm: float
    longest_mm: float
    short: int
    thread_mm: float
    travel_mm: float


@dataclass(frozen=True)
class RoutedPiece:
    """A piece as it is sewn: the number of its lines, their cost in steps, the steps that are sewn again, and the penetrations of
    the needle. Of `double` all steps are sewn again."""
    block: int
    piece: int
    lines: int
    cost: int
    retraced: int
    penetrations: int


@dataclass(frozen=True)
class Route:
    """A drawing as it is sewn: the design, the certificate of its walks, its pieces, and the penetrations of all."""
    design: Design
    certificate: bytes
    pieces: tuple[RoutedPiece, ...]
    penetrations: int


@dataclass(frozen=True)
class Drawing:
    """A drawing: the bytes of its text. They are read once something of them is asked for: that raises `Refused` if they are no
    drawing. `report` has what the command printed that made it, and `notes` what was left out of the SVG file that it is of."""
    data: bytes = field(repr=False)
    report: Record = field(default_factory=dict, repr=False, compare=False)
    notes: tuple[str, ...] = field(default=(), compare=False)

    def __post_init__(self) -> None:
        if not isinstance(self.data, bytes):
            raise ValueError("a drawing has bytes: stitch.Drawing.open reads a file")

    @classmethod
    def open(cls, path: Path) -> Drawing:
        """Reads a file."""
        drawing = cls(read(path))
        _ = drawing._looked  # refused where it is no drawing
        return drawing

    @classmethod
    def from_svg(cls, path: Path, step: float = 2.5, within: float = 0.1, apart: float = 0.5, width: float | None = None,
                 centre: bool = False, skip: bool = False) -> Drawing:
        """The drawing of the strokes of an SVG file. Lengths are millimetres: of the longest stitch, how far curves may be from
        their points and how far apart these may be, and how wide the drawing is made. `centre` brings its middle to the origin, and
        `skip` leaves out what can't be sewn. It needs svgelements."""
        from .svg import by_svgelements
        from .svg.drawing import RANGES, document, drawing
        from .svg.strokes import TooMuch
        from .svg.style import Refused as RefusedSvg
        numbers = {"step": tenths("step", step), "within": within, "apart": apart,
                   **({} if width is None else {"width": tenths("width", width)})}
        for name, value in numbers.items():
            if not RANGES[name][0] <= value <= RANGES[name][1]:
                raise ValueError(f"{name}: {value} isn't from {RANGES[name][0]} to {RANGES[name][1]}")
        try:
            made = drawing(*document(read(path)), by_svgelements, int(numbers["step"]), within, apart,
                           None if width is None else int(numbers["width"]), centre, skip)
        except (RefusedSvg, TooMuch, RecursionError) as why:
            raise Refused(str(why)) from None
        return cls(made.text.encode(), notes=tuple(made.notes))

    @classmethod
    def sample(cls, number: int) -> Drawing:
        """The sample drawing of a number."""
        return cls._of("stitch", ["sample", str(number), "made.rw"], {})

    @classmethod
    def trace(cls, design: Design) -> Drawing:
        """The drawing of what a design sews."""
        return cls._of("stitch", ["trace", f"design.{design.format}", "made.rw"], {f"design.{design.format}": design.data})

    @classmethod
    def _of(cls, program: str, words: list[str], files: dict[str, bytes]) -> Drawing:
        reply = done(program, words, files)
        sums = [record for record in parsed(reply.out)[0] if "block" not in record]
        return cls(reply.files["made.rw"], {name: values for record in sums for name, values in record.items()})

    def _made(self, program: str, before: Sequence[str], after: Sequence[str] = ()) -> Drawing:
        return self._of(program, [*before, "drawing.rw", "made.rw", *after], {"drawing.rw": self.data})

    def _look(self, *words: str) -> tuple[list[Record], tuple[Place, ...]]:
        return parsed(done("stitch_drawing", ["look", "drawing.rw", *words], {"drawing.rw": self.data}).out)

    @cached_property
    def _looked(self) -> list[Record]:
        return self._look()[0]

    def save(self, path: Path, overwrite: bool = False) -> None:
        """Writes the drawing to a file."""
        write(path, self.data, overwrite)

    @property
    def size_mm(self) -> tuple[float, ...]:
        """The width and the height of the points."""
        return mm(self._looked[0], "size")

    @property
    def pieces(self) -> tuple[Piece, ...]:
        """The pieces, in the order in which they are sewn."""
        return tuple(filled(Piece, record) for record in self._looked if "block" in record)

    @property
    def thread_mm(self) -> float:
        """The length of all lines."""
        return mm(self._looked[-1], "thread")[0]

    @property
    def travel_mm(self) -> float:
        """The length of the ways between pieces."""
        return mm(self._looked[-1], "travel")[0]

    def places(self, gap: float = 0.2) -> tuple[Place, ...]:
        """The places that were probably not meant: those of lines that nearly meet are within a gap, in millimetres."""
        return self._look(str(tenths("gap", gap)))[1]

    def prepare(self, gap: float = 0.2, steps: Sequence[str] = STEPS) -> Drawing:
        """The drawing made ready to be sewn: migrated if it is of version 1, snapped by a gap unless that is 0, and then after the
        steps, which are those of `redwork`."""
        made = self._made("stitch", ["migrate"]) if re.search(rb"(?m)^redwork[ \t]+1\s", self.data) else self
        made = made.snap(gap) if gap else made
        for step in steps:
            made = made._made("stitch_drawing", [step])
        return made

    def migrate(self) -> Drawing:
        """A drawing of version 1 or 2 with its lines cut where they meet."""
        return self._made("stitch", ["migrate"])

    def snap(self, gap: float, keep: bool = False) -> Drawing:
        """The drawing with lines that meet where they are within a gap, in millimetres. Segments that are drawn again are left out,
        unless `keep`."""
        return self._made("stitch_drawing", ["snap", str(tenths("gap", gap))], ["--keep"] * keep)

    def cross(self, keep: bool = False) -> Drawing:
        """The drawing with points where its lines cross. Segments that are drawn again are left out, unless `keep`."""
        return self._made("stitch_drawing", ["cross"], ["--keep"] * keep)

    def space(self, **limits: Setting) -> Drawing:
        """The drawing without points for which one stitch stands. The longest stitch, `length`, and the `leeway` of points are
        millimetres."""
        return self._made("stitch_drawing", ["space"], words_of(limits))

    def free(self) -> Drawing:
        """The drawing with the best start and end for each piece that has neither."""
        return self._made("stitch_drawing", ["free"])

    def near(self) -> Drawing:
        """The drawing with the pieces of each block in an order with less travel."""
        return self._made("stitch_drawing", ["near"])

    def edit(self, **edits: Setting) -> Drawing:
        """The drawing after edits, in their order, such as `centre=True`, `turn=1`, `order=(2, 1)` and `start=(0, -2.5)`. Lengths are
        millimetres."""
        return self._made("stitch_drawing", ["edit"], words_of(edits))

    def route(self, format: str) -> Route:
        """The drawing as it is sewn by one thread over each piece, from its start to its end, or back to where it began. No such thread
        over its points has fewer penetrations."""
        return self._sewn("route", format)

    def double(self, format: str) -> Route:
        """The drawing as it is sewn by one thread over each piece that passes each line once in each direction."""
        return self._sewn("double", format)

    def _sewn(self, way: str, format: str) -> Route:
        out = f"made.{format}"
        reply = done("stitch", [way, "drawing.rw", out, "made.cert"], {"drawing.rw": self.data})
        *pieces, sums = parsed(reply.out)[0]
        routed = tuple(filled(RoutedPiece, {"retraced": record["cost"], **record}) for record in pieces)
        return Route(Design(reply.files[out], format), reply.files["made.cert"], routed, number(sums, "penetrations"))

    def picture(self, certificate: bytes | None = None, size: tuple[int, int] | None = None) -> str:
        """The picture as SVG: of the drawing, or of the proof that a certificate is of it; of its true size or, in millimetres, of
        another."""
        files = {"drawing.rw": self.data, **({} if certificate is None else {"given.cert": certificate})}
        return done("stitch_picture", [*files, "made.svg", *size_word(size)], files).files["made.svg"].decode()


def check(drawing: Drawing, design: Design, certificate: bytes) -> None:
    """Returns if the design sews the drawing by threads of the kind that `route` makes, and the certificate proves that no such thread
    has fewer penetrations; else raises `Refused` with the first reason why not."""
    files = {"drawing.rw": drawing.data, f"design.{design.format}": design.data, "given.cert": certificate}
    done("stitch", ["check", *files], files)
