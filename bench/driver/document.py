"""Reads and writes the tables between two marks of the document."""

from places import DOCUMENT


def parted(name):
    """The document before a part, the part, and what follows it."""
    begin, end = f"<!-- {name}: begin -->", f"<!-- {name}: end -->"
    before, rest = DOCUMENT.read_text().split(begin, 1)
    part, after = rest.split(end, 1)
    return before + begin, part, end + after


def put(text, name):
    before, _, after = parted(name)
    DOCUMENT.write_text(f"{before}\n\n{text}\n{after}")


def cells(line):
    return [cell.strip() for cell in line.strip("|").split("|")]


def rows(name):
    """The rows of a part's tables: the heading above each, and its cells by the heads of their columns."""
    heading, heads = "", None
    for line in parted(name)[1].splitlines():
        if line.startswith("#"):
            heading = line.lstrip("# ")
        if not line.startswith("|"):
            heads = None
        elif heads is None:
            heads = cells(line)
        elif not line.startswith("|---"):
            yield heading, dict(zip(heads, cells(line)))
