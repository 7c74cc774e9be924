#!/usr/bin/env python3
"""Counts what a reader of some definitions has to read: definitions of this repository's specs, with their lines and
crates, words of std and of the kit's crates, and types and constants that the code declares.

    bench/reached.py [--list] [NAME..]

NAME is CRATE/MODULE.NAME, or CRATE/src/FILE.rt:FUNCTION for all that the clauses of a function name, or `specs` for all
definitions. Without a name it counts what docs/TRUSTED.md shows. A definition is reached by its name in the text of one
that is reached, either in the same file or by a `use` line. So are words of std, types and constants, which are counted
and not read further. Lines are those without blanks and comments. With --list it prints first what it counts.
"""
import collections
import glob
import os
import re
import sys

DEFINITION = re.compile(
    r"^(?:(?:pub )?(?:record|data) (?:pub )?(?P<kind>[A-Za-z_][\w'-]*)"
    r"|(?:pub )?(?:(?:abbrev|unfoldable) )?(?:pub )?(?P<value>[A-Za-z_][\w'-]*)\s*:(?=\s|$))")
NAME = re.compile(r"[A-Za-z_][\w']*(?:-[\w']+)*")
TOKEN = re.compile(r"[^\s(){},;]+")
USE = re.compile(r"(?:pub |ghost )?use Rattle\.([\w.]+?)(?:\.\{([^}]*)\}| as (\w+));?$")
HOME = os.path.join(os.path.dirname(os.path.abspath(__file__)), "..", "crates")
NAMES = ("route_verdict/LeastRedwork.IsLeastRoute", "route_verdict/LeastRedwork.IsLeastRedwork",
         "stitch_cli/Headline.IsRouteLeft", "program_shell/ProgramRuns.RunEnds", "stitch_cli/StitchRuns.IsStitchRun", "specs")
FILES = {}


def imported(line):
    """The names that a `use` line imports: how the file calls each, and the place that it stands for."""
    used = USE.match(line)
    path = used.group(1).split(".") if used else []
    if len(path) < 3 or path[1] != "specs":
        return
    declared = path[2] == "declared"
    if used.group(3):
        yield used.group(3) + ".", ("type", ".".join(path[:-1]))
    for item in (used.group(2) or "").split(","):
        names = [name.strip() for name in item.split(" as ")]
        if not names[0]:
            continue
        if not os.path.isdir(os.path.join(HOME, path[0])):
            place = "std", names[0]
        elif path[-1] == "TheConstants":
            place = "constant", ".".join(path[:-1] + names[:1])
        elif declared:
            place = "type", ".".join(path[:-1] if path[-1] == "TheVariants" else path)
        elif len(path) == 3:
            place = path[0], path[2], names[0]
        else:
            continue
        yield names[-1], place


def read(crate, module):
    """The definitions of a file, each with its lines, and the names that it imports, each with what it stands for."""
    if (crate, module) in FILES:
        return FILES[crate, module]
    definitions, imports, current = {}, {}, None
    path = os.path.join(HOME, crate, "specs", module + ".antt")
    for line in open(path, encoding="utf-8") if os.path.exists(path) else ():
        line = line.rstrip("\n")
        imports.update(imported(line))
        if not line.strip() or line.startswith(("use ", "pub use ", "--")):
            continue
        match = DEFINITION.match(line)
        first = NAME.match(line)
        if match:
            current = match.group("kind") or match.group("value")
            definitions.setdefault(current, [])
        elif first and first.group(0) in definitions:
            current = first.group(0)
        if current:
            definitions[current].append(line)
    FILES[crate, module] = definitions, imports
    return FILES[crate, module]


def clauses(crate, file, function):
    """The text of a function's clauses, and the names that its file imports."""
    imports, text, inside = {}, None, False
    for line in open(os.path.join(HOME, crate, "src", file), encoding="utf-8"):
        imports.update(imported(line.rstrip("\n")))
        inside = inside or re.match(rf"\s*(?:pub )?fn {function}\b", line) is not None
        if inside and line.strip() in ("{", "{}"):
            break
        if inside and (text or line.lstrip().startswith(("requires ", "ensures "))):
            text = (text or "") + line
        inside = inside and line != "}\n"
    return text or "", imports


def all_definitions():
    """The places of all definitions, and the words, types and constants that all files import."""
    seen, others = set(), set()
    for path in glob.glob(os.path.join(HOME, "*", "specs", "*.antt")):
        crate, module = path.split(os.sep)[-3], os.path.basename(path)[:-5]
        definitions, imports = read(crate, module)
        seen |= {(crate, module, word) for word in definitions}
        others |= {place for place in imports.values() if len(place) == 2}
    return seen, others


def stands_in(name, text, words, tokens):
    """Whether a text has an imported name: a word, an operator with `◌` for its operands, or an alias of a type."""
    if name.endswith("."):
        return re.search(rf"(?<![\w.]){name[:-1]}\.[A-Z]", text) is not None
    return name in words or name in tokens or "◌" in name and all(part in tokens for part in name.split("◌") if part)


def reached(name):
    """What is reached from a name: places of definitions, words of std, types and constants."""
    if name == "specs":
        return all_definitions()
    seen, others, todo = set(), set(), []

    def add(text, definitions, imports, home):
        words, tokens = set(NAME.findall(text)), set(TOKEN.findall(text.replace(".", " ")))
        todo.extend((*home, word) for word in words if word in definitions)
        for called, place in imports.items():
            if called not in definitions and stands_in(called, text, words, tokens):
                (todo.append if len(place) == 3 else others.add)(place)

    if ":" in name:
        crate, _, file, function = re.split(r"[/:]", name)
        text, imports = clauses(crate, file, function)
        add(text, {}, imports, ())
    else:
        todo.append(tuple(re.split(r"[/.]", name)))
    while todo:
        crate, module, word = place = todo.pop()
        definitions, imports = read(crate, module)
        if place in seen or word not in definitions:
            continue
        seen.add(place)
        add("\n".join(definitions[word]), definitions, imports, (crate, module))
    return seen, others


def main():
    names = [word for word in sys.argv[1:] if word != "--list"] or NAMES
    for name in names:
        seen, others = reached(name)
        if not seen:
            sys.exit(f"reached: {name} names no definition\n{__doc__}")
        found = collections.defaultdict(list)
        for crate, module, word in seen:
            found[f"{crate}/{module}"].append(word)
        for kind, word in others:
            found[kind].append(word)
        if "--list" in sys.argv:
            for place in sorted(found):
                print(f"{place}: {' '.join(sorted(found[place]))}")
        lines = sum(len(read(crate, module)[0][word]) for crate, module, word in seen)
        print(f"{name}: {len(seen)} definitions, {lines} lines, {len({place[0] for place in seen})} crates, "
              f"{len(found['std'])} words of std, {len(found['type'])} Rust types, {len(found['constant'])} constants")


if __name__ == "__main__":
    main()
