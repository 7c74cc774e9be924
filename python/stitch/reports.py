"""What the programs print, as values. docs/FORMATS.md has the grammar of reports."""
from __future__ import annotations

import re
from dataclasses import dataclass, field, fields
from typing import Mapping, Tuple, Type, TypeVar, Union

Kind = TypeVar("Kind")
# The values of a line by their names.
Record = Mapping[str, Tuple[Union[int, str], ...]]

NUMBER = r"-?\d+"
ITEM = rf"[a-z]+(?: {NUMBER})+"
PLACE = re.compile(rf"({ITEM}(?: (?:and )?{ITEM})*): (.+)")
SENTENCE = re.compile(r"[a-z]+(?: [a-z]+){2,}")
KIND = re.compile(rf"(?:\d+ )?(.+?)(?: of| by| from)?(?:,| {NUMBER}|$)")


@dataclass(frozen=True)
class Place:
    """A place that a report or a refusal names. `where` has the numbers of what it is in, such as a command, and `text` what is
    there. `kind` is the text up to a number, and `numbers` has all of its numbers: lengths are tenths of a millimetre."""
    kind: str
    text: str
    where: Mapping[str, tuple[int, ...]] = field(hash=False)
    numbers: tuple[int, ...]

    @property
    def command(self) -> int | None:
        """The command of a design, from 1, or None."""
        return self.where.get("command", (None,))[0]

    @property
    def point_mm(self) -> tuple[float, float] | None:
        """The point of a drawing, in millimetres, or None."""
        at = self.where.get("at")
        return (at[0] / 10, at[1] / 10) if at else None


def place(where: str, text: str, about: str = "") -> Place:
    """The place of the words before the colon and of those after it, which may begin with more of what it is about."""
    kind, numbers = KIND.match(text[len(about):].strip()), re.findall(rf"(?<!\S){NUMBER}", text)
    items = record_of(f"{where} {about}").items()
    return Place(kind[1] if kind else text, text, {name: tuple(map(int, values)) for name, values in items}, tuple(map(int, numbers)))


def refused_place(line: str) -> Place:
    """The place of a refusal, whose line may begin with the name of a file or with `no`, as in `a.pes: edit 1: command 2 moved out
    of range`."""
    text, where = re.sub(r"^(?:\S+\.[a-z]+|no): ", "", line), ""
    while found := PLACE.fullmatch(text):
        where, text = f"{where} {found[1]}", found[2]
    about = re.match(rf"[a-z]+ {NUMBER}(?= [a-z])", text)
    return place(where, text, about[0] if about else "")


def record_of(line: str) -> Record:
    """The values of a line by their names. Names of threads, colours and labels, which are in brackets, are texts."""
    values: dict[str, list[Union[int, str]]] = {}
    found: list[Union[int, str]] = []
    words = re.findall(r"\[.*\]|[A-Z]\w*(?: [A-Z]\w*)*|\S+", line)
    for word in words:
        if re.fullmatch(rf"{NUMBER},?", word):
            found.append(int(word.rstrip(",")))
        elif word[0] in "[#" or word[0].isupper() or len(words) == 2 and word is words[1]:
            found.append(word[1:-1] if word[0] == "[" else word)
        elif word not in ("to", "and"):
            found = values.setdefault(word, [])
    return {name: tuple(all_of) for name, all_of in values.items()}


def parsed(report: str) -> tuple[list[Record], tuple[Place, ...]]:
    """The records of a report, and its places."""
    records, places = [], []
    for line in report.splitlines():
        found = PLACE.fullmatch(line)
        if found or SENTENCE.fullmatch(line):
            places.append(place(found[1], found[2]) if found else place("", line))
        elif ": " not in line or "[" in line:
            records.append(record_of(line))
    return records, tuple(places)


def number(record: Record, name: str) -> int:
    """The number of that name."""
    return int(record[name][0])


def mm(record: Record, name: str) -> tuple[float, ...]:
    """The lengths of that name, in millimetres."""
    return tuple(int(length) / 10 for length in record[name])


def filled(kind: Type[Kind], record: Record, **values: object) -> Kind:
    """A value of a dataclass whose fields are in a record: numbers, and lengths in millimetres where the name of a field ends in mm."""
    for one in fields(kind):
        name = one.name.replace("_mm", "")
        if name in record and one.name not in values:
            values[one.name] = number(record, name) if name == one.name else mm(record, name)[0]
    return kind(**values)
