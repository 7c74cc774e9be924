"""Edges of real files and streams: permissions, several names, links, pipes, full disks, closed streams, names that are no
text, too little memory. Each is a function of a fresh folder. What must happen is said by the README and the manual pages.
"""
import math
import os
import resource
import subprocess
import threading
from collections import namedtuple

from row_files import cert, exp, rw, text
from row_table import (LINE, LINE_ACTS, LINE_CERT, LINE_LIST, MILLION, Step, done, failed, line_of, misused, refused,
                       snake)

Edge = namedtuple("Edge", "title run")
EDGES = []
CONVERTED = exp(*LINE_ACTS)
REPORT = "needles 9 trims 1 stops 0\n"
DOUBLE_CERT = cert("piece 4", "walk 1 -1")
DOUBLE_REPORT = text("block 1 piece 1 lines 1 cost 4 penetrations 9", "pieces 1 penetrations 9")
SPACED = rw(2, "step 10", "color 1", "line 0 0 40 0")
SPACE_REPORT = "points 2 to 2 stitches 4 to 4 shortest 40 to 40 longest 40 to 40 pieces 1\n"


class Here:
    """A folder, and what is run in it."""

    def __init__(self, title, rows, folder):
        self.title, self.rows, self.folder = title, rows, folder

    def at(self, name):
        return os.path.join(self.folder, name)

    def write(self, name, content):
        with open(self.at(name), "wb") as file:
            file.write(content.encode() if isinstance(content, str) else content)

    def read(self, name):
        with open(self.at(name), "rb") as file:
            return file.read()

    def tells(self, what, is_right):
        self.rows.tell(self.title, what, [] if is_right else ["isn't so"])

    def has(self, name, content):
        """Compares a file's content."""
        content = content.encode() if isinstance(content, str) else content
        self.tells(f"{name} has what it should have", os.path.exists(self.at(name)) and self.read(name) == content)

    def has_only(self, *names, folder="."):
        """Compares the names in a folder."""
        found = sorted(os.listdir(self.at(folder)))
        self.tells(f"{found} are the files {sorted(names)}", found == sorted(names))

    def run(self, step, shell=None, **streams):
        """Runs a step, by a shell with such a redirection if there is one, and compares what it printed."""
        arguments = self.rows.arguments(step.words)
        if shell:
            arguments = ["sh", "-c", f'exec "$0" "$@" {shell}', *arguments]
        status, out, err = self.rows.result(self.folder, arguments, **streams)
        self.rows.tell(self.title, step.words, list(self.rows.compare(step, status, out, err)))
        return out


def edge(title):
    def register(run):
        def begun(rows, folder):
            run(Here(title, rows, folder))
        EDGES.append(Edge(title, begun))
        return run
    return register


def write_inputs(here):
    here.write("a.rw", LINE)
    here.write("a.lst", LINE_LIST)
    here.write("a.cert", LINE_CERT)


def is_picture(content):
    return content.startswith(b"<") and content.rstrip().endswith(b"</svg>")


def circle(radius, apart):
    """A closed line around the origin, of points that are about so far apart."""
    count = round(2 * math.pi * radius / apart)
    turns = [2 * math.pi * k / count for k in range(count)]
    points = [(round(radius * math.cos(turn)), round(radius * math.sin(turn))) for turn in turns]
    kept = [p for p, before in zip(points, points[-1:] + points) if p != before]
    return kept + kept[:1]


def square_from_the_middle(side, count):
    """A square of so many points a side, which begins in the middle of one."""
    along = [round(side * k / count) for k in range(count)]
    points = [(d, 0) for d in along] + [(side, d) for d in along]
    points += [(side - d, side) for d in along] + [(0, side - d) for d in along]
    points = points[count // 2:] + points[:count // 2]
    return points + points[:1]


def spaced(here, points, words=""):
    """What `space` reports of one closed line: its stitches, its shortest and its longest one, and its widest spacing before."""
    here.write("even.rw", rw(2, "step 25", "color 1", "line " + " ".join(f"{x} {y}" for x, y in points)))
    out = here.run(Step(f"stitch_drawing space even.rw out.rw {words}".strip(), 0, None, "", {}))
    said = out.decode().split()
    after = {word: int(said[said.index(word) + 3]) for word in ("stitches", "shortest", "longest")}
    return after["stitches"], after["shortest"], after["longest"], int(said[said.index("longest") + 1])


@edge("stitches of spaced squares and circles are even")
def even_stitches(here):
    stitches, shortest, _, _ = spaced(here, square_from_the_middle(103, 20))
    here.tells("a square of 103 has 22 penetrations, and no stitch below 14", stitches == 21 and shortest >= 14)
    for radius in (40, 100):
        _, shortest, longest, spacing = spaced(here, circle(radius, 5), "length=25")
        here.tells(f"the stitches of a circle of {2 * radius} differ by one spacing at most", longest - shortest <= spacing)
    for apart in (2, 3):
        here.tells("a berry of radius 1 mm has seven corners or more", spaced(here, circle(10, apart), "leeway=1")[0] >= 7)


@edge("a file that is overwritten keeps its permissions")
def keep_mode(here):
    write_inputs(here)
    for name, mode in (("b.exp", 0o600), ("c.svg", 0o640), ("d.rw", 0o604), ("e.exp", 0o444)):
        here.write(name, "old")
        os.chmod(here.at(name), mode)
    here.run(done("stitch convert a.lst b.exp", REPORT))
    here.run(done("stitch_picture a.lst c.svg", ""))
    here.run(done("stitch_drawing space a.rw d.rw", SPACE_REPORT))
    here.has("b.exp", CONVERTED)
    here.has("d.rw", SPACED)
    here.tells("c.svg is a picture", is_picture(here.read("c.svg")))
    for name, mode in (("b.exp", 0o600), ("c.svg", 0o640), ("d.rw", 0o604)):
        here.tells(f"{name} has mode {mode:o}", os.stat(here.at(name)).st_mode & 0o777 == mode)
    # who may write any file, may overwrite this one too
    if os.geteuid() != 0:
        here.run(failed("stitch convert a.lst e.exp", "cannot write e.exp"))
        here.has("e.exp", "old")
    here.has_only("a.rw", "a.lst", "a.cert", "b.exp", "c.svg", "d.rw", "e.exp")


@edge("a file with two names is written in place")
def two_names(here):
    write_inputs(here)
    here.write("b.exp", "old and longer than what is written to it" * 10)
    os.link(here.at("b.exp"), here.at("other"))
    before = os.stat(here.at("b.exp"))
    here.run(done("stitch convert a.lst b.exp", REPORT))
    after = os.stat(here.at("b.exp"))
    here.tells("it is the same file", (before.st_ino, after.st_nlink) == (after.st_ino, 2))
    here.has("b.exp", CONVERTED)
    here.has("other", CONVERTED)
    here.has_only("a.rw", "a.lst", "a.cert", "b.exp", "other")


@edge("links are followed")
def links(here):
    write_inputs(here)
    os.makedirs(here.at("kept"))
    here.write("kept/old.exp", "old")
    os.symlink("kept/old.exp", here.at("to.exp"))
    os.symlink("to.exp", here.at("again.exp"))
    os.symlink("kept/new.exp", here.at("new.exp"))
    os.symlink("loop.exp", here.at("loop.exp"))
    for name, place in (("to.exp", "kept/old.exp"), ("new.exp", "kept/new.exp"), ("again.exp", "kept/old.exp")):
        here.write("kept/old.exp", "old")
        here.run(done(f"stitch convert a.lst {name}", REPORT))
        here.has(place, CONVERTED)
        here.tells(f"{name} is a link", os.path.islink(here.at(name)))
    here.has_only("old.exp", "new.exp", folder="kept")
    here.run(failed("stitch convert a.lst loop.exp", "cannot write loop.exp"))
    here.run(failed("stitch show loop.exp", "cannot read loop.exp"))
    here.has_only("a.rw", "a.lst", "a.cert", "kept", "to.exp", "again.exp", "new.exp", "loop.exp")


@edge("a file that was read or made isn't written under another name")
def second_names(here):
    write_inputs(here)
    here.write("drawing.svg", LINE)
    os.symlink("a.lst", here.at("link.lst"))
    os.link(here.at("a.lst"), here.at("twin.lst"))
    os.mkdir(here.at("sub"))
    given = ["a.rw", "a.lst", "a.cert", "drawing.svg", "link.lst", "twin.lst", "sub"]
    for name in ("./a.lst", "link.lst", "twin.lst", "sub/../a.lst", here.at("a.lst")):
        here.run(failed(f"stitch convert a.lst {name}", f"cannot write {name}"))
        here.run(failed(f"stitch edit a.lst {name} thread=1,9", f"cannot write {name}"))
    here.run(failed("stitch migrate a.rw ./a.rw", "cannot write ./a.rw"))
    here.run(failed("stitch route a.rw b.lst ./a.rw", "cannot write ./a.rw"))
    here.run(failed("stitch_drawing space a.rw ./a.rw", "cannot write ./a.rw"))
    here.run(failed("stitch_drawing snap 2 a.rw ./a.rw", "cannot write ./a.rw"))
    here.run(failed("stitch_drawing edit a.rw ./a.rw turn=1", "cannot write ./a.rw"))
    here.run(failed("stitch_picture drawing.svg ./drawing.svg", "cannot write ./drawing.svg"))
    for name, content in (("a.lst", LINE_LIST), ("a.rw", LINE), ("drawing.svg", LINE)):
        here.has(name, content)
    here.has_only(*given)
    # the certificate is made first, and stands
    here.run(failed("stitch double a.rw b.lst ./b.lst", "cannot write b.lst"))
    here.has("b.lst", DOUBLE_CERT)
    here.has_only(*given, "b.lst")


@edge("what an interrupted run left blocks nothing, and stays")
def left_over(here):
    write_inputs(here)
    here.write(".stitch-0", "left")
    os.symlink("nowhere", here.at(".stitch-1"))
    os.mkdir(here.at(".stitch-2"))
    here.write("b.exp", "old")
    here.run(done("stitch convert a.lst b.exp", REPORT))
    here.run(done("stitch convert a.lst c.exp", REPORT))
    here.run(done("stitch_drawing space a.rw d.rw", SPACE_REPORT))
    for name, content in (("b.exp", CONVERTED), ("c.exp", CONVERTED), ("d.rw", SPACED), (".stitch-0", "left")):
        here.has(name, content)
    here.has_only("a.rw", "a.lst", "a.cert", "b.exp", "c.exp", "d.rw", ".stitch-0", ".stitch-1", ".stitch-2")


def feed_pipe(path, content):
    """Begins to write to a pipe that a program will read once."""
    def feed():
        with open(path, "wb") as file:
            file.write(content)
    feeder = threading.Thread(target=feed, daemon=True)
    feeder.start()
    return feeder


@edge("a pipe is read once")
def read_pipes(here):
    write_inputs(here)
    # longer than a pipe holds
    long_drawing = (rw(1, "step 10", *["# a comment"] * 20000, "color 1", "line 0 0 40 0")).encode()
    steps = [("pipe.rw", long_drawing, done("stitch double pipe.rw b.lst b.cert", DOUBLE_REPORT)),
             ("pipe.exp", CONVERTED, done("stitch convert pipe.exp c.lst", REPORT)),
             ("pipe.cert", LINE_CERT.encode(), done("stitch check a.rw a.lst pipe.cert", "yes\n")),
             ("pipe.rw", long_drawing, done("stitch_drawing space pipe.rw d.rw", SPACE_REPORT)),
             ("pipe.rw", long_drawing, done("stitch_picture pipe.rw e.svg", "")),
             ("pipe.rw", b"", refused("stitch_picture pipe.rw f.svg", "pipe.rw: line 1: not a redwork drawing"))]
    for name, content, step in steps:
        os.mkfifo(here.at(name))
        feeder = feed_pipe(here.at(name), content)
        here.run(step)
        feeder.join(10)
        os.remove(here.at(name))
    here.has("b.lst", LINE_LIST)
    here.has("c.lst", LINE_LIST)
    here.has("d.rw", SPACED.replace("color", "# a comment\n" * 20000 + "color"))
    # standard input by a link with the right ending, as a pipe and as a file
    for name, content, step in (("in.rw", long_drawing, done("stitch migrate in.rw g.rw", "lines 1 pieces 1 cost 4\n")),
                                ("in.exp", CONVERTED, done("stitch convert in.exp g.lst", REPORT))):
        os.symlink("/dev/stdin", here.at(name))
        here.write("fed", content)
        with subprocess.Popen(["cat", "fed"], cwd=here.folder, stdout=subprocess.PIPE) as feeding:
            here.run(step, stdin=feeding.stdout)
        with open(here.at("fed"), "rb") as file:
            here.run(step, stdin=file)
    here.has("g.rw", SPACED)
    here.has("g.lst", LINE_LIST)


@edge("a pipe is written in place")
def write_pipes(here):
    write_inputs(here)
    taken = []
    os.mkfifo(here.at("b.exp"))
    taker = threading.Thread(target=lambda: taken.append(here.read("b.exp")), daemon=True)
    taker.start()
    here.run(done("stitch convert a.lst b.exp", REPORT))
    taker.join(10)
    here.tells("the pipe had the design", taken == [CONVERTED])
    # standard output by a link: the output, and then the report
    os.symlink("/dev/stdout", here.at("out.lst"))
    here.run(done("stitch edit a.lst out.lst turn=0", LINE_LIST + REPORT))
    # a pipe takes two outputs: the certificate, the design, and then the report
    os.symlink("/dev/stdout", here.at("out.cert"))
    here.run(done("stitch double a.rw out.lst out.cert", DOUBLE_CERT + LINE_LIST + DOUBLE_REPORT))
    os.symlink("/dev/stdout", here.at("out.svg"))
    out = here.run(Step("stitch_picture a.lst out.svg", 0, None, "", {}))
    here.tells("standard output had the picture", is_picture(out))
    here.has_only("a.rw", "a.lst", "a.cert", "b.exp", "out.lst", "out.cert", "out.svg")


@edge("a full disk")
def full_disk(here):
    write_inputs(here)
    for name in ("full.exp", "full.lst", "full.cert", "full.rw", "full.svg"):
        os.symlink("/dev/full", here.at(name))
    for words, name in (("convert a.lst full.exp", "full.exp"), ("edit a.lst full.exp turn=1", "full.exp"),
                        ("route a.rw b.lst full.cert", "full.cert"), ("double a.rw b.lst full.cert", "full.cert"),
                        ("migrate a.rw full.rw", "full.rw"), ("sample 75 full.rw", "full.rw"),
                        ("trace a.lst full.rw", "full.rw")):
        here.run(failed(f"stitch {words}", f"cannot write {name}"))
    for words in ("a.lst full.svg", "a.rw full.svg", "a.rw a.cert full.svg"):
        here.run(failed(f"stitch_picture {words}", "cannot write full.svg"))
    for words in ("snap 2 a.rw full.rw", "space a.rw full.rw", "edit a.rw full.rw turn=1"):
        here.run(failed(f"stitch_drawing {words}", "cannot write full.rw"))
    given = ["a.rw", "a.lst", "a.cert", "full.exp", "full.lst", "full.cert", "full.rw", "full.svg"]
    here.has_only(*given)
    # the certificate is written first, and stands
    here.run(failed("stitch double a.rw full.lst b.cert", "cannot write full.lst"))
    here.has("b.cert", DOUBLE_CERT)
    here.has_only(*given, "b.cert")


@edge("a standard output that fails")
def no_output(here):
    write_inputs(here)
    steps = [("stitch show a.lst", None), ("stitch convert a.lst b.exp", "b.exp"), ("stitch check a.rw a.lst a.cert", None),
             ("stitch hoop a.lst 100 100", None), ("stitch_drawing look a.rw", None),
             ("stitch_drawing space a.rw c.rw", "c.rw")]
    for shell in (">&-", "> /dev/full"):
        for words, name in steps:
            here.run(failed(words, "cannot print"), shell=shell)
            if name:
                here.has(name, CONVERTED if name == "b.exp" else SPACED)
                os.remove(here.at(name))
        # the picture prints nothing, so that nothing fails
        here.run(done("stitch_picture a.lst d.svg", ""), shell=shell)
    for words, name in steps:
        # a pipe that nobody reads
        reads, writes = os.pipe()
        os.close(reads)
        here.run(failed(words, "cannot print"), stdout=writes)
        os.close(writes)
    here.has("a.lst", LINE_LIST)
    here.has("a.rw", LINE)
    here.has("a.cert", LINE_CERT)


@edge("a standard error that fails")
def no_error(here):
    write_inputs(here)
    for shell in ("2> /dev/full", "2>&-"):
        for words in ("stitch show none.lst", "stitch show a.rw", "stitch convert a.lst none/b.exp",
                      "stitch hoop a.lst 1 1", "stitch_picture", "stitch_drawing look none.rw"):
            here.run(Step(words, 3, "", "", {}), shell=shell)
    # what is done needs no standard error
    here.run(done("stitch show a.lst", None), shell="2>&-")
    here.has_only("a.rw", "a.lst", "a.cert")


@edge("names that are no text")
def no_text(here):
    write_inputs(here)
    name = b"\xff.lst"
    with open(os.path.join(here.folder.encode(), name), "w") as file:
        file.write(LINE_LIST)
    for words in (["stitch", "show", name], ["stitch", "convert", "a.lst", b"\xc3.exp"],
                  ["stitch", "edit", "a.lst", "b.lst", b"turn=1\xff"], ["stitch_picture", name, "b.svg"],
                  ["stitch_picture", "a.lst", b"\xed\xa0\x80.svg"], ["stitch_drawing", "look", b"\xf8.rw"]):
        here.run(misused(words))
    here.has_only("a.rw", "a.lst", "a.cert", os.fsdecode(name))


def with_memory(kibibytes):
    """Limits what a program that begins may take."""
    def limited():
        resource.setrlimit(resource.RLIMIT_DATA, (kibibytes << 10, kibibytes << 10))
    return limited


@edge("too little memory")
def no_memory(here):
    write_inputs(here)
    here.write("big.exp", bytes(2 * MILLION))
    here.write("big.rw", rw(1, "step 1", "color 1", line_of(snake(65536, 2))))
    given = ["a.rw", "a.lst", "a.cert", "big.exp", "big.rw"]
    for name in ("b.exp", "b.lst", "b.cert", "b.rw", "b.svg"):
        here.write(name, "old")
        given.append(name)
    for words in ("stitch show big.exp", "stitch convert big.exp b.exp", "stitch route big.rw b.lst b.cert",
                  "stitch_picture big.exp b.svg", "stitch_picture big.rw b.svg", "stitch_drawing look big.rw",
                  "stitch_drawing snap 2 big.rw b.rw", "stitch_drawing space big.rw b.rw",
                  "stitch_drawing edit big.rw b.rw turn=1"):
        here.run(Step(words, 4, "", f"{words.split()[0]}: out of memory\n", {}), preexec_fn=with_memory(2048))
    for name in given[5:]:
        here.has(name, "old")
    here.has_only(*given)


@edge("with any amount of memory it is done, or nothing changes")
def little_memory(here):
    write_inputs(here)
    here.write("big.exp", bytes(MILLION))
    here.write("big.rw", rw(1, "step 1", "color 1", line_of(snake(65536, 1))))
    for words, outputs in (
            ("stitch convert big.exp b.lst", ["b.lst"]), ("stitch route big.rw b.lst b.cert", ["b.cert", "b.lst"]),
            ("stitch_picture big.rw b.svg", ["b.svg"]), ("stitch_drawing edit big.rw b.rw turn=1", ["b.rw"])):
        lacking = (4, b"", f"{words.split()[0]}: out of memory\n".encode(), [b"old"] * len(outputs))
        endings = []
        for kibibytes in range(512, 65537, 512):
            for name in outputs:
                here.write(name, "old")
            status, out, err = here.rows.result(here.folder, here.rows.arguments(words), preexec_fn=with_memory(kibibytes))
            here.rows.run += 1
            endings.append((status, out, err, [here.read(name) for name in outputs]))
        most = endings[-1]
        here.tells(f"{words}: it is done with 64 MiB", most[0] == 0 and b"old" not in most[3])
        here.tells(f"{words}: it is done, or memory lacks", all(ending in (most, lacking) for ending in endings))
        here.tells(f"{words}: memory lacks with 512 KiB", endings[0] == lacking)
