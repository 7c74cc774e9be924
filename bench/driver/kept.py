"""Builds a program that is kept here, over copies of the crates that it needs.

The gate reads each .rt and .antt file of the repository as a crate's, so these have other endings here."""

import shutil
import subprocess
from pathlib import Path

from places import BENCH, REPOSITORY

ENDINGS = {".rattle": ".rt", ".claims": ".antt"}
CRATES = REPOSITORY / "crates"


def stands_on():
    """The crates that each crate of the repository needs, lowest first."""
    lines = (REPOSITORY / "crates.txt").read_text().splitlines()
    rows = [line.split("#")[0].partition(":") for line in lines]
    return {name.split()[0]: libraries.split() for name, _, libraries in rows if name.strip()}


def all_below(libraries, rows):
    """These crates of the repository and all that they need, lowest first."""
    wanted = set(libraries)
    for name in reversed(rows):
        if name in wanted:
            wanted.update(rows[name])
    return {name: rows[name] for name in rows if name in wanted}


def is_newer(stamp, other):
    """Whether what was built there is newer, or the only one."""
    return stamp.exists() and not (other.exists() and other.stat().st_mtime >= stamp.stat().st_mtime)


def copy_crate(name, target):
    """What a crate is made of, and what was proved and built of it, where that is news."""
    source, stamp = CRATES / name, Path("out", "rlib", "stamp")
    parts = ["src", "specs", "proofs"] + (["out/rlib"] if is_newer(source / stamp, target / stamp) else [])
    for part in parts:
        shutil.rmtree(target / part, ignore_errors=True)
        if (source / part).is_dir():
            shutil.copytree(source / part, target / part)


def copy_kept(source, target):
    """A tree of kept files, with the endings of a crate's."""
    for part in ("src", "specs", "proofs"):
        shutil.rmtree(target / part, ignore_errors=True)
    for file in source.rglob("*"):
        if file.suffix in ENDINGS:
            place = (target / file.relative_to(source)).with_suffix(ENDINGS[file.suffix])
            place.parent.mkdir(parents=True, exist_ok=True)
            shutil.copy(file, place)


def built(source, libraries):
    """The program of a folder, proved and built below bench/out/."""
    name, rows = source.name, stands_on()
    top = BENCH / "out" / name
    program = top / "crates" / name / "out" / name
    program.unlink(missing_ok=True)
    below = all_below(libraries, rows)
    for library in below:
        copy_crate(library, top / "crates" / library)
    copy_kept(source, top / "crates" / name)
    lines = [f"{crate}: {' '.join(parts)}\n" for crate, parts in {**below, name: libraries}.items()]
    (top / "crates.txt").write_text("".join(lines))
    # without arguments nothing is begun, and the status shows that
    run = subprocess.run(["rt", "run"], cwd=top / "crates" / name, stdin=subprocess.DEVNULL, capture_output=True)
    if not program.exists():
        raise SystemExit(f"bench: {name} is not proved or not built:\n{run.stdout.decode()}{run.stderr.decode()}")
    return program
