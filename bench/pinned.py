#!/usr/bin/env python3
"""Lists what no worked fact of this repository's specs names, by crate: definitions, and fields of records.

    bench/pinned.py [--list] [CRATE..]

A fact is a statement in a file crates/*/proofs/*Facts.antt. It reaches each definition that it names, and each that one of
these names. A definition that no fact reaches can be changed, and the code alike, without a fact that fails. So can a
field, unless a fact that reaches its record has `.field` or `field =`. With --list it prints their names too, and why those
that stay are left. A field that is named may still be weakened unseen: try it as `Unit`, and some fact has to fail.
"""
import collections
import glob
import os
import re
import sys

import reached

PROOF = re.compile(r"(?:pub )?use Rattle\.(\w+)\.proofs\.(\w+)\.\{([^}]*)\}")
RECORD = re.compile(r"(?:pub )?record ")
VALUE = re.compile(r"(?:pub )?(?:abbrev )?(?:pub )?([\w'-]+)")
FIELD = re.compile(r"\s+pub ([\w']+) :")
NAMED_FIELD = re.compile(r"\.([a-z][\w']*)|\b([a-z][\w']*) =(?!=)")
LEFT = {"Mistakes.mistaken_word": "a mistake borrows its word, so no worked value is one", "Places.point_at": "of tests alone"}
REACHED = {}


def lines_of(path):
    with open(path, encoding="utf-8") as file:
        return file.read().split("\n")


def passed_on(crate, module):
    """The names of specs that a file of proofs imports: what stands for each."""
    path = os.path.join(reached.HOME, crate, "proofs", module + ".antt")
    imports = {}
    for line in lines_of(path) if os.path.exists(path) else ():
        imports.update(reached.imported(line))
    return imports


def facts_in(path):
    """The statements of a file of facts, each with the definitions that it names, also in a value of the file."""
    imports, text = {}, []
    for line in lines_of(path):
        imports.update(reached.imported(line))
        proofs = PROOF.match(line)
        if proofs:
            known = passed_on(proofs.group(1), proofs.group(2))
            for item in proofs.group(3).split(","):
                first, *other = [name.strip() for name in item.split(" as ")]
                if first in known:
                    imports[(other or [first])[-1]] = known[first]
        elif not line.startswith(("use ", "pub use ", "--")):
            text.append(line)
    values = {name: {place} for name, place in imports.items() if len(place) == 3}
    for fact in re.split(r"\n\n+(?=\S)", "\n".join(text).strip("\n")):
        places = set().union(*(values[word] for word in set(reached.NAME.findall(fact)) if word in values))
        values[VALUE.match(fact).group(1)] = places
        yield fact, places


def reached_from(places):
    """The definitions that some definitions reach, themselves included."""
    for place in places - REACHED.keys():
        REACHED[place] = reached.reached("{}/{}.{}".format(*place))[0]
    return set().union(*(REACHED[place] for place in places))


def fields_of(place):
    """The names of a record's fields, none for another definition."""
    lines = reached.read(*place[:2])[0][place[2]]
    return [field.group(1) for field in map(FIELD.match, lines) if field] if lines and RECORD.match(lines[0]) else []


def report(kind, left, count):
    """Prints what is left of each crate, and the total."""
    for crate, names in sorted(left.items()):
        told = [f"{name} ({LEFT[name]})" if name in LEFT else name for name in names]
        print(f"{crate}: {len(names)}" + (f": {' '.join(told)}" if "--list" in sys.argv else ""))
    print(f"{kind}: {sum(map(len, left.values()))} of {count}")


def main():
    pinned, named = set(), collections.defaultdict(set)
    for path in glob.glob(os.path.join(reached.HOME, "*", "proofs", "*Facts.antt")):
        for fact, places in facts_in(path):
            fields = {dotted or given for dotted, given in NAMED_FIELD.findall(fact)}
            for place in reached_from(places):
                pinned.add(place)
                named[place] |= fields
    known, _ = reached.all_definitions()
    wanted = {word for word in sys.argv[1:] if word != "--list"}
    definitions, fields, count = collections.defaultdict(list), collections.defaultdict(list), 0
    for crate, module, word in sorted(known):
        place = crate, module, word
        count += len(fields_of(place))
        if not wanted or crate in wanted:
            definitions[crate] += [f"{module}.{word}"] if place not in pinned else []
            fields[crate] += [f"{module}.{word}.{field}" for field in fields_of(place) if field not in named[place]]
    report("definitions", {crate: names for crate, names in definitions.items() if names}, len(known))
    report("fields", {crate: names for crate, names in fields.items() if names}, count)


if __name__ == "__main__":
    main()
