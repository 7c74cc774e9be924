"""The commands that faults are tried on: their files, and the result of each where nothing fails."""
from dataclasses import dataclass, field

SQUARE = b"redwork 1\nstep 30\ncolor 5\nline 0 0 30 0 30 30 0 30 0 0\n"

SQUARE_CERT = b"redwork-certificate 1\npiece 0\nwalk 1\nend\n"

SQUARE_RECORDS = bytes.fromhex(
    "000003 000503 005003 000a03 00a003 824183 828283 824183 0000f3")

SQUARE_REPORT = (b"block 1 piece 1 lines 1 cost 4 retraced 0 penetrations 5\n"
                 b"pieces 1 penetrations 5\n")

# four junctions, each connected with each
FOUR = (b"redwork 1\nstep 30\ncolor 1\nline 0 0 30 0\nline 0 0 30 30\nline 0 0 0 30\n"
        b"line 30 0 30 30\nline 30 0 0 30\nline 30 30 0 30\n")

FOUR_REPORT = (b"block 1 piece 1 lines 6 cost 6 retraced 2 penetrations 9\n"
               b"pieces 1 penetrations 9\n")

# a stitch, four jumps of 100 to the right, and a stitch
FLOAT = bytes.fromhex("0000" + "80046400" * 4 + "0000")

CUT_RECORDS = bytes.fromhex(
    "000003 824183 828283 824183 090487 090487 090487 090487 000003 0000f3")

SAMPLE = (b"redwork 1\nname sample\nstep 25\ncolor 1\nline 49 27 106 45\nline 1 141 126 149\n"
          b"line 49 27 1 141\nline 106 45 126 149\nline 49 27 126 149\nline 106 45 1 141\n")

SAMPLE_REPORT = (b"sample 75\nlines 6\njunctions 4\nodd 4\npieces 1\ncost 28\nretraced 8\n"
                 b"penetrations 37\ncuts 16\n")

SAMPLE_ROUTE = (b"block 1 piece 1 lines 6 cost 28 retraced 8 penetrations 37\n"
                b"pieces 1 penetrations 37\n")

SHOWN = (b"format dst\nlabel []\ncommands 9\nneedles 5\ntrims 1\nstops 0\nextent 0 0 30 30\n"
         b"ended yes\nblock 1 thread 1 needles 5\n")

DONE, REFUSED, USAGE, FAULT, MEMORY = range(5)


@dataclass
class Command:
    """A command: its arguments, the files that it reads in order, those that it writes in order, and its end."""
    words: list
    inputs: list
    outputs: list
    out: bytes = b""
    err: bytes = b""
    status: int = DONE
    # what an output holds, or ends with, where that is fixed
    holds: dict = field(default_factory=dict)
    ends: dict = field(default_factory=dict)


def command(words, inputs, outputs, out=b"", **more):
    return Command(words.split(), inputs.split(), outputs.split(), out, **more)


FIRST_FILES = {"sq.rw": SQUARE, "k4.rw": FOUR, "a.exp": FLOAT}

# each may read what those before it write
COMMANDS = [
    command("route sq.rw sq.dst sq.cert", "sq.rw", "sq.cert sq.dst", SQUARE_REPORT,
            holds={"sq.cert": SQUARE_CERT}, ends={"sq.dst": SQUARE_RECORDS}),
    command("check sq.rw sq.dst sq.cert", "sq.rw sq.dst sq.cert", "", b"yes\n"),
    command("show sq.dst", "sq.dst", "", SHOWN),
    command("edit sq.dst turned.dst turn=1", "sq.dst", "turned.dst",
            b"needles 5 trims 1 stops 0\n"),
    command("hoop sq.dst 1000 1000", "sq.dst", "", b"fits upright\n"),
    command("route k4.rw k4.pes k4.cert", "k4.rw", "k4.cert k4.pes", FOUR_REPORT),
    command("check k4.rw k4.pes k4.cert", "k4.rw k4.pes k4.cert", "", b"yes\n"),
    command("convert a.exp b.dst", "a.exp", "b.dst", status=REFUSED,
            err=b"stitch: b.dst: command 6: float too long\n"),
    command("convert a.exp b.dst --cut", "a.exp", "b.dst", b"needles 2 trims 1 stops 0\n",
            ends={"b.dst": CUT_RECORDS}),
    command("sample 75 s.rw", "", "s.rw", SAMPLE_REPORT, holds={"s.rw": SAMPLE}),
    command("route s.rw s.exp s.cert", "s.rw", "s.cert s.exp", SAMPLE_ROUTE),
    command("check s.rw s.exp s.cert", "s.rw s.exp s.cert", "", b"yes\n"),
]

# the size of an input that is read by two calls: one that gives all its bytes, and one that gives none
READ_CALLS = 2


def unread(name):
    return b"stitch: cannot read " + name.encode() + b"\n"


def unwritten(name):
    return b"stitch: cannot write " + name.encode() + b"\n"


UNPRINTED = b"stitch: cannot print\n"

NO_MEMORY = b"stitch: out of memory\n"
