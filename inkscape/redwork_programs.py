"""The programs of Stitch that the extension runs: where they are looked for, and what they refuse."""
import os
import re
import shutil
import subprocess

# The file that `make` writes beside this one: the folders of the programs, one a line.
FOLDERS = os.path.join(os.path.dirname(os.path.abspath(__file__)), "folders.txt")

# The lines of a report of look that are places.
MEETING = re.compile(r"block \d+ line (?P<first>\d+)(?: and line (?P<other>\d+))? at (?P<x>-?\d+) (?P<y>-?\d+): "
                     r"(?P<what>loose end|near point|unlisted meeting|crossing|overlap|repeated segment)")
SHORT = re.compile(r"block \d+ line (?P<first>\d+)(?P<other>): (?P<what>\d+ stitch(?:es)? shorter than half a step), "
                   r"the first at (?P<x>-?\d+) (?P<y>-?\d+)")


class Failed(Exception):
    """What a program refused, or that it isn't there."""


def folders():
    """The folders that may have the programs, in the order in which they are looked through."""
    listed = []
    if os.path.exists(FOLDERS):
        with open(FOLDERS, encoding="utf-8") as file:
            listed = file.read().splitlines()
    return [os.environ.get("STITCH_BIN", ""), *os.environ.get("PATH", "").split(os.pathsep), *listed]


def program(name):
    """The path of a program."""
    found = shutil.which(name, path=os.pathsep.join(folder for folder in folders() if folder))
    if not found:
        raise Failed(f"The program {name} isn't there. Type make install in the folder of Stitch, or set STITCH_BIN to the "
                     "folder that has it, and start Inkscape again.")
    return found


def run(folder, *words):
    """Runs a program in a folder, and returns what it prints."""
    done = subprocess.run([program(words[0]), *map(str, words[1:])], cwd=folder, capture_output=True, text=True,
                          stdin=subprocess.DEVNULL, check=False)
    if done.returncode:
        raise Failed(done.stderr.strip() or f"{words[0]} ended with status {done.returncode}")
    return done.stdout


def object_of(message, text, labels):
    """The label of the object that a message is about, or "". It names a line of the drawing, or one of its text."""
    drawn, written = re.search(r"block \d+ line (\d+)", message), re.search(r": line (\d+): ", message)
    if drawn:
        number = int(drawn[1])
    elif written:
        number = sum(line.startswith("line ") for line in text.splitlines()[:int(written[1])])
    else:
        return ""
    return labels[number - 1] if 0 < number <= len(labels) else ""


class Work:
    """A drawing in a folder, on which the programs are run one after the other."""

    def __init__(self, folder, text, labels):
        self.folder, self.labels, self.name = folder, labels, "drawn.rw"
        with open(os.path.join(folder, self.name), "w", encoding="ascii") as out:
            out.write(text)

    def read(self, name):
        """The bytes of a file in the folder."""
        with open(os.path.join(self.folder, name), "rb") as file:
            return file.read()

    def run(self, *words):
        """Runs a program, and returns what it prints. A refusal has the object that it is about."""
        try:
            return run(self.folder, *words)
        except Failed as why:
            label = object_of(str(why), self.read(self.name).decode("ascii"), self.labels)
            raise Failed(f"{why} (object {label})" if label else str(why)) from None

    def prepare(self, gap, steps):
        """Snaps the drawing by a distance in tenths of a millimetre, not by 0, and then takes the steps."""
        for words in [["snap", gap]] * (gap > 0) + [[step] for step in steps]:
            made = f"{words[0]}.rw"
            self.run("stitch_drawing", *words, self.name, made)
            self.name = made
        if "near" in steps:
            self.labels = []  # the lines are in another order

    def route(self, form):
        """Routes the drawing to a format, and returns the bytes of the design and of the certificate, and the report."""
        report = self.run("stitch", "route", self.name, f"design.{form}", "design.cert")
        return self.read(f"design.{form}"), self.read("design.cert"), report

    def tie(self, form):
        """Ties the routed design, and returns its bytes."""
        self.run("stitch_design", "edit", f"design.{form}", f"tied.{form}", "tie")
        return self.read(f"tied.{form}")

    def places(self, gap):
        """The places that look names: each its point in tenths of a millimetre, and what it is with its object."""
        report = self.run("stitch_drawing", "look", self.name, gap)
        return [place for place in map(self.place, report.splitlines()) if place]

    def place(self, line):
        """The point and the text of a place, with the labels of its objects, or None for a line that is no place."""
        found = MEETING.match(line) or SHORT.match(line)
        if not found:
            return None
        first, x, y, what = found["first"], found["x"], found["y"], found["what"]
        labels = [object_of(f"block 1 line {number}", "", self.labels) for number in (first, found["other"]) if number]
        return (int(x), int(y)), f"{what}: {', '.join(filter(None, labels))}".rstrip(": ")
