#!/usr/bin/env python3
"""Converts the stitch files of a folder to a format, into another folder.

    python/convert_folder.py [--split] [--cut] [--overwrite] FOLDER FORMAT OUT

Prints a line for each file: what it became, or why it was refused or skipped; then a sum. Progress is on standard error. A
file that is there already is skipped, unless --overwrite is given. Ctrl-C stops it after the file that it is at. Exits with 0,
with 1 if a file was refused or skipped, with 130 if it was stopped, and with 2, before anything is written, for arguments that
request nothing: also if OUT is FOLDER, or if two files would become one.
"""
import argparse
import os
import signal
import sys

import stitch


def files_of(folder):
    """The names of the stitch files of a folder with their formats, in order."""
    for name in sorted(os.listdir(folder)):
        ending = name.rpartition(".")[2].lower()
        if ending in stitch.FORMATS:
            yield name, ending


def same_result(names, form):
    """The first two names whose files would become one, also where a folder takes capitals for small letters, or None."""
    found = {}
    for name, _ in names:
        first = found.setdefault(result_of(name, form).casefold(), name)
        if first != name:
            return first, name
    return None


def result_of(name, form):
    """The name of what a file becomes."""
    return f"{name.rpartition('.')[0]}.{form}"


def convert(name, request):
    """Converts a file, and returns what became of it: `converted`, `refused` or `skipped`, and the line that says so."""
    to = result_of(name, request.format)
    try:
        design = stitch.open(os.path.join(request.folder, name)).convert(request.format, split=request.split, cut=request.cut)
        design.save(os.path.join(request.out, to), request.overwrite)
        return "converted", f"{name}: {to}"
    except FileExistsError:
        return "skipped", f"{name}: {to} is there: skipped"
    except (stitch.Refused, MemoryError, OSError) as why:
        return "refused", f"{name}: {why}"


def main():
    parser = argparse.ArgumentParser(description="Converts the stitch files of a folder.")
    parser.add_argument("folder")
    parser.add_argument("format", choices=stitch.FORMATS)
    parser.add_argument("out")
    parser.add_argument("--split", action="store_true", help="split stitches that are too long")
    parser.add_argument("--cut", action="store_true", help="replace each float by a trim")
    parser.add_argument("--overwrite", action="store_true", help="write over files that are there already")
    request = parser.parse_args()
    if not os.path.isdir(request.folder):
        parser.error(f"{request.folder} is no folder")
    names = list(files_of(request.folder))
    if os.path.exists(request.out) and os.path.samefile(request.folder, request.out):
        parser.error(f"{request.out} is the folder itself: name another for the converted files")
    both = same_result(names, request.format)
    if both:
        parser.error(f"{both[0]} and {both[1]} would both become {result_of(both[1], request.format)}: move one of them")
    os.makedirs(request.out, exist_ok=True)
    stopped = []
    for kind in (signal.SIGINT, signal.SIGTERM):
        signal.signal(kind, lambda *_: stopped.append(True))
    counts = dict.fromkeys(("converted", "refused", "skipped"), 0)
    for number, (name, _) in enumerate(names, 1):
        if stopped:
            break
        print(f"\r{number} of {len(names)}", end="", file=sys.stderr, flush=True)
        what, line = convert(name, request)
        counts[what] += 1
        print(line, flush=True)
    print(file=sys.stderr)
    left = len(names) - sum(counts.values())
    print(f"{len(names)} files, " + ", ".join(f"{count} {what}" for what, count in counts.items()) + f", {left} left" * bool(left))
    return 130 if left else int(counts["converted"] < len(names))


if __name__ == "__main__":
    sys.exit(main())
