#!/usr/bin/env python3
"""Plants wrong definitions one by one in a copy of this repository, and reports which fact of the crate refuses each.

    bench/planted.py COPY TABLE [CRATE..]

COPY is another checkout, whose libraries are built: it is changed, and put back after each plant. TABLE has a line for each
plant, with its parts between ` | `: the crate, the file in its folder, a text to be replaced and the new text; then further
such texts, as for an import. Each stands in the file exactly once. `\\n` ends a line. Lines that begin with # are left out.

A plant is checked with the crate's facts alone (crates/*/proofs/*Facts.antt): a function is added whose proof imports a fact
of each of these files. So the code isn't proved against what is planted. Each plant has one line: the facts that refuse it,
`slips` if none does, or why it can't be read. Status 1: some slip, or can't be read.
"""
import glob
import os
import re
import shutil
import subprocess
import sys

PROBE = """ghost use Rattle.std.specs.Prelude.{◌≡◌};

/// Returns the number.
pub fn probe_facts(n: u32) -> u32
    ensures { result ≡ n }
{
    n
}
"""
ANSWER = """use Rattle.std.proofs.Common.{refl}
%suse Rattle.%s.proofs.fact_probe.probe_facts.Goals as goal

pub returns : goal.returns
returns c = refl
"""
ERROR = re.compile(r"^\./(\S+?):(\d+):\d+: error: (.*)", re.M)
STATED = re.compile(r"^(?:(?:  )?pub )?(?!use |mod |module |abbrev )(\w+) :", re.M)


def text_of(path):
    with open(path, encoding="utf-8") as file:
        return file.read()


def write(path, text):
    os.makedirs(os.path.dirname(path), exist_ok=True)
    if os.path.exists(path):
        os.unlink(path)
    with open(path, "w", encoding="utf-8") as file:
        file.write(text)


def add_probe(folder, crate):
    """Adds the function whose proof imports a fact of each facts file, and returns the root file as it was."""
    root = f"{folder}/src/lib.rt"
    old, imports = text_of(root), []
    for path in sorted(glob.glob(f"{folder}/proofs/*Facts.antt")):
        module = os.path.basename(path)[:-5]
        fact = re.search(r"^pub (?!use |mod |module )(\w+) :", text_of(path), re.M)
        imports.append(f"use Rattle.{crate}.proofs.{module}.{{{fact.group(1)} as fact{len(imports)}}}\n")
    write(f"{folder}/src/fact_probe.rt", PROBE)
    write(f"{folder}/proofs/fact_probe/probe_facts/Answers.antt", ANSWER % ("".join(imports), crate))
    write(root, re.sub(r"^((?:pub )?mod \w+;)", r"pub mod fact_probe;\n\1", old, count=1, flags=re.M))
    return old


def remove_probe(folder, root):
    """Puts the root file back, so that the crates above find the library as it was built."""
    write(f"{folder}/src/lib.rt", root)
    os.unlink(f"{folder}/src/fact_probe.rt")
    shutil.rmtree(f"{folder}/proofs/fact_probe")


def read_facts(folder):
    """The output of a check that reads the crate's facts."""
    command = ["rt", "check", "--only", "probe_facts", "--jobs", "1"]
    done = subprocess.run(command, cwd=folder, capture_output=True, text=True, check=False)
    return done.stdout + done.stderr


def enclosing(path, line):
    """The last statement of the file that begins at or before that line."""
    names = STATED.findall("\n".join(text_of(path).split("\n")[: int(line)]))
    return names[-1] if names else "?"


def verdict(folder, output):
    facts, others = [], []
    for file, line, text in ERROR.findall(output):
        if file.startswith("proofs/fact_probe"):
            continue
        where = f"{os.path.basename(file)[:-5]}.{enclosing(os.path.join(folder, file), line)}"
        (facts if file.endswith("Facts.antt") else others).append((where, file, text))
    if facts:
        return "refused by " + " ".join(dict.fromkeys(where for where, _, _ in facts))
    if others:
        return f"CAN'T BE READ: {others[0][1]}: {others[0][2]}"
    return "slips" if "only=1 proved=1" in output else "CAN'T BE READ: " + output.strip()[-300:]


def planted(text, edits):
    """The text after the edits, or why there is none."""
    for old, new in zip(edits[::2], edits[1::2]):
        if text.count(old) != 1:
            return None, f"CAN'T BE READ: {text.count(old)} times in the file: {old}"
        text = text.replace(old, new)
    return text, None


def tried(folder, file, edits):
    """What refuses the edits of a file of a crate that has the function."""
    path = os.path.join(folder, file)
    old = text_of(path)
    new, why = planted(old, edits)
    if why:
        return why
    write(path, new)
    try:
        return verdict(folder, read_facts(folder))
    finally:
        write(path, old)


def rows_of(table, wanted):
    """The rows of the table: each its line, its crate, its file and its edits."""
    for line in text_of(table).split("\n"):
        if line.strip() and not line.startswith("#"):
            crate, file, *edits = [part.replace("\\n", "\n") for part in line.split(" | ")]
            if not wanted or crate in wanted:
                yield line, crate, file, edits


def main():
    copy, table, *wanted = sys.argv[1:]
    bad = 0
    for line, crate, file, edits in rows_of(table, wanted):
        folder = os.path.join(copy, "crates", crate)
        root = add_probe(folder, crate)
        try:
            result = tried(folder, file, edits)
        finally:
            remove_probe(folder, root)
        bad += not result.startswith("refused")
        print(f"{line} | {result}", flush=True)
    sys.exit(1 if bad else 0)


if __name__ == "__main__":
    main()
