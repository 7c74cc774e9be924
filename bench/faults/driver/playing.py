"""Runs of a program in a folder of its own, and their results."""
import os
import subprocess
from dataclasses import dataclass

OLD = b"an old file\n" * 300


@dataclass
class Left:
    """The result of a run: its status, its streams, and the files of the names that it may write."""
    status: int
    out: bytes
    err: bytes
    files: dict


class Tally:
    """Counts runs, and prints those that differ from what is expected."""

    def __init__(self):
        self.runs = 0
        self.wrong = 0
        self.part = ""
        self.counts = {}

    def begin(self, part):
        self.part = part
        self.counts[part] = 0

    def see(self, what, is_right, left=None):
        self.runs += 1
        self.counts[self.part] += 1
        if not is_right:
            self.wrong += 1
            print(f"faults: {self.part}: {what}: {left}")


def lay(folder, files):
    """Makes a folder hold these files alone; None means no file."""
    for name in os.listdir(folder):
        os.unlink(os.path.join(folder, name))
    for name, content in files.items():
        if content is not None:
            with open(os.path.join(folder, name), "wb") as file:
                file.write(content)


def content(folder, name):
    try:
        with open(os.path.join(folder, name), "rb") as file:
            return file.read()
    except FileNotFoundError:
        return None


def play(folder, args, names, env=None, **more):
    """Runs a program in the folder, and returns its result for these names."""
    given = dict(stdin=subprocess.DEVNULL, stdout=subprocess.PIPE, stderr=subprocess.PIPE)
    given.update(more)
    done = subprocess.run(args, cwd=folder, env={**os.environ, **(env or {})}, timeout=120, **given)
    files = {name: content(folder, name) for name in names}
    return Left(done.returncode, done.stdout or b"", done.stderr or b"", files)


def is_clean(folder, known):
    """The folder contains only known files."""
    return set(os.listdir(folder)) <= set(known)
