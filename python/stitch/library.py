"""The library of the programs, by packed bytes as docs/EMBEDDING.md describes them, and what its runs raise."""
from __future__ import annotations

import ctypes
import ctypes.util
import functools
import mmap
import os
import struct
from dataclasses import dataclass
from typing import Callable, Mapping, Sequence

from .reports import Place, refused_place

PROGRAMS = ("stitch", "stitch_drawing", "stitch_picture", "stitch_design")
# The bytes of room for a reply: a number of them, more for each byte of the task, and a number that they don't exceed. What a reply
# doesn't reach takes no memory. A longer reply is made again, in as much room as it needs.
ROOM, ROOM_EACH, ROOM_MOST = 1 << 25, 48, 1 << 27


@dataclass(frozen=True)
class Reply:
    """What a run left: its exit status, what it printed and reported, and the files that it wrote or changed."""
    status: int
    out: str
    err: str
    files: Mapping[str, bytes]


class Refused(Exception):
    """A file or a limit was refused. `place` is what was found, and where; the error as a text names the file too."""
    __module__ = "stitch"

    def __init__(self, line: str) -> None:
        super().__init__(line)
        self.place: Place = refused_place(line)

    @property
    def text(self) -> str:
        """What is wrong."""
        return self.place.text

    @property
    def command(self) -> int | None:
        """The command of the design that is refused, from 1, or None."""
        return self.place.command


@functools.lru_cache(maxsize=None)
def _function(program: str) -> Callable[..., int]:
    """The function of a program: in the file that STITCH_LIBRARY names, else in libstitch.so in this package or as `make library`
    leaves it, else in that of the system."""
    here = os.path.dirname(os.path.abspath(__file__))
    built = (os.path.join(here, *folders, "libstitch.so") for folders in ((), ("..", "..", "out", "library", "lib")))
    found = [name for name in (os.environ.get("STITCH_LIBRARY"), *built) if name and os.path.exists(name)]
    function = ctypes.CDLL(found[0] if found else ctypes.util.find_library("stitch") or "libstitch.so")[f"{program}_run"]
    function.restype = ctypes.c_size_t
    function.argtypes = [ctypes.c_char_p, ctypes.c_size_t, ctypes.c_void_p, ctypes.c_size_t]
    return function


def _part(content: bytes) -> bytes:
    return struct.pack("<I", len(content)) + content


def packed(words: Sequence[str], files: Mapping[str, bytes]) -> bytes:
    """The packed task of these arguments and files."""
    parts = [struct.pack("<I", len(words)), *(_part(word.encode()) for word in words), struct.pack("<I", len(files))]
    for name, content in files.items():
        parts += [_part(name.encode()), _part(content)]
    return b"".join(parts)


def called(program: str, task: bytes) -> bytes:
    """The packed reply of a program to a packed task."""
    room = min(ROOM + ROOM_EACH * len(task), ROOM_MOST)
    while True:
        with mmap.mmap(-1, room) as memory:
            length = _function(program)(task, len(task), ctypes.addressof(ctypes.c_char.from_buffer(memory)), room)
            if length <= room:
                return memory[:length]
        room = length


def unpacked(reply: bytes) -> Reply:
    """What a packed reply says. Bytes that are none raise ValueError."""
    at = 0

    def taken(count: int) -> bytes:
        nonlocal at
        at += count
        if at > len(reply):
            raise ValueError("the reply is cut off")
        return reply[at - count:at]

    def number() -> int:
        return int.from_bytes(taken(4), "little")

    def part() -> bytes:
        return taken(number())

    status, out, err = number(), part(), part()
    files = {part().decode(): part() for _ in range(number())}
    return Reply(status, out.decode(errors="replace"), err.decode(errors="replace"), files)


def run(program: str, words: Sequence[str], files: Mapping[str, bytes]) -> Reply:
    """Runs `stitch`, `stitch_drawing`, `stitch_picture` or `stitch_design` with these arguments over these files, which are found
    by their names. This is the low door: each command of the programs goes through it, and nothing is raised for what they refuse."""
    if program not in PROGRAMS:
        raise ValueError(f"{program!r}: the programs are {', '.join(PROGRAMS)}")
    if not isinstance(words, (list, tuple)) or not all(isinstance(word, str) for word in words):
        raise ValueError(f"{words!r}: the arguments are a list of texts")
    if not isinstance(files, Mapping) or not all(isinstance(content, bytes) for content in files.values()):
        raise ValueError("the files are bytes by their names")
    return unpacked(called(program, packed(words, files)))


def done(program: str, words: Sequence[str], files: Mapping[str, bytes]) -> Reply:
    """Runs a program, and raises what it reports if it isn't done."""
    reply = run(program, words, files)
    if reply.status == 0:
        return reply
    line = reply.err.split("\n", 1)[0].removeprefix(f"{program}: ")
    if reply.status == 1:
        raise Refused(line)
    if reply.status == 2:
        raise ValueError(f"not understood: {program} {' '.join(words)}" if line.startswith("usage") else line)
    if reply.status == 3:
        raise OSError(line)
    raise MemoryError(line)


def version() -> str:
    """The version of the library."""
    return done("stitch_design", ["--version"], {}).out.split()[1]
