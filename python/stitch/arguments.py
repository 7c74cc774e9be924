"""What callers give, as arguments of the programs, and files."""
from __future__ import annotations

import math
import os
from typing import Mapping, Tuple, Union

Path = Union[str, "os.PathLike[str]"]
# The value of an edit or a limit, as in `tie=True`, `turn=1`, `mirror="x"` and `shift=(0, -2.5)`.
Setting = Union[bool, int, float, str, Tuple[float, float]]

FORMATS = ("dst", "exp", "pec", "pes", "lst")
# The edits and limits that are lengths.
LENGTHS = {"cut", "end", "float", "leeway", "length", "long", "merge", "shift", "short", "start", "step", "tie"}


def tenths(name: str, mm: float) -> int:
    """A length of millimetres in tenths of one."""
    if isinstance(mm, bool) or not isinstance(mm, (int, float)) or not math.isfinite(mm) or abs(10 * mm - round(10 * mm)) > 1e-6:
        raise ValueError(f"{name}: {mm!r} mm isn't a whole number of tenths")
    return round(10 * mm)


def words_of(settings: Mapping[str, Setting]) -> list[str]:
    """The arguments of edits or limits, in their order. What is False isn't among them."""
    words = []
    for key, value in settings.items():
        name = key.replace("_", "-")
        if isinstance(value, bool):
            words += [name] * value
        else:
            values = value if isinstance(value, tuple) else (value,)
            words.append(f"{name}=" + ",".join(str(tenths(key, one) if key in LENGTHS else one) for one in values))  # type: ignore[arg-type]
    return words


def size_word(size: tuple[int, int] | None) -> list[str]:
    """The argument of the size of a picture, in millimetres, if it is given."""
    return [f"size={size[0]}x{size[1]}"] if size else []


def format_of(path: Path) -> str:
    """The format that the ending of a name gives."""
    return known(os.path.splitext(path)[1][1:].lower())


def known(format: str) -> str:
    """A format, which must be one of ours."""
    if format not in FORMATS:
        raise ValueError(f"{format!r}: the formats are {', '.join(FORMATS)}")
    return format


def read(path: Path) -> bytes:
    """The content of a file."""
    with open(path, "rb") as file:
        return file.read()


def write(path: Path, content: bytes, overwrite: bool) -> None:
    """Writes a file whole or not at all. Unless it is to be overwritten, one that is there stays, and raises FileExistsError."""
    made = f"{os.fspath(path)}.{os.getpid()}.new" if overwrite else path
    file = open(made, "xb")
    try:
        with file:
            file.write(content)
        if overwrite:
            os.replace(made, path)
    except BaseException:
        os.remove(made)
        raise
