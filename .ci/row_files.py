"""Files of rows, made by the pages alone: drawings, certificates, and designs in each format as docs/FORMATS.md gives it.

A design is a list of the lines of a stitch list: `block T`, `needle X Y`, `float X Y` and `trim`, beginning with the first
block. No program of the repository is asked.
"""

LIMIT = {"dst": 121, "exp": 127, "pec": 2047, "pes": 2047}


def text(*lines):
    return "".join(line + "\n" for line in lines)


def rw(version, *lines):
    """The text of a drawing."""
    return text(f"redwork {version}", *lines)


def cert(*lines):
    """The text of a certificate, with its first line and its last."""
    return text("redwork-certificate 1", *lines, "end")


def lst(*lines, label=""):
    """The text of a stitch list, with its first lines and its last."""
    return text("stitch-list 1", f"label [{label}]", *lines, "end")


def path(*numbers):
    """The needles of a thread through points, given as X Y X Y .."""
    return [f"needle {x} {y}" for x, y in zip(numbers[::2], numbers[1::2])]


def parts(there, here, number):
    """The moves of a way in that many parts, each point rounded down."""
    points = [[a + (b - a) * k // number for a, b in zip(there, here)] for k in range(number + 1)]
    return [(b[0] - a[0], b[1] - a[1]) for a, b in zip(points, points[1:])]


def records(limit, lines, jumps_in_float=None):
    """What is written for the acts of a design: pairs of a kind and a move. y points downwards."""
    at, is_loose, made = (0, 0), True, []
    for line in lines[1:]:
        word, *numbers = line.split()
        if word in ("needle", "float"):
            here = tuple(map(int, numbers))
            far = max(abs(here[0] - at[0]), abs(here[1] - at[1]))
            if word == "needle" and not is_loose:
                made.append(("stitch", (here[0] - at[0], here[1] - at[1])))
            else:
                hops = max(-(-far // limit), 1 if word == "float" else 0)
                moves = [("jump", move) for move in parts(at, here, hops)] if hops else []
                if word == "float" and hops == jumps_in_float:
                    made += moves[:-1] + [("stitch", moves[-1][1])]
                else:
                    made += moves + [("stitch", (0, 0))]
            at, is_loose = here, False
        else:
            made.append(("trim" if word == "trim" else "stop", (0, 0)))
            is_loose = True
    return made


def needles_of(lines):
    return [tuple(map(int, line.split()[1:])) for line in lines if line.split()[0] in ("needle", "float")]


def threads_of(lines):
    return [int(line.split()[1]) for line in lines if line.startswith("block ")]


def dst_record(x, y, flags):
    """A record of three bytes. y points upwards, as in the file."""
    record = [0, 0, flags | 3]
    # for each power of three its byte, and the bits of x plus, x minus, y plus and y minus
    for value, byte, bits in ((81, 2, (2, 3, 5, 4)), (27, 1, (2, 3, 5, 4)), (9, 0, (2, 3, 5, 4)), (3, 1, (0, 1, 7, 6)),
                              (1, 0, (0, 1, 7, 6))):
        for number, plus, minus in ((x, *bits[:2]), (y, *bits[2:])):
            # the digit of this power in the balanced ternary expansion
            digit = (number + (3 * value - 1) // 2) // value % 3 - 1
            if digit:
                record[byte] |= 1 << (plus if digit > 0 else minus)
    return bytes(record)


def dst_records(lines):
    made = b""
    for kind, (x, y) in records(LIMIT["dst"], lines, jumps_in_float=3):
        if kind == "trim":
            made += bytes.fromhex("824183 828283 824183")
        else:
            made += dst_record(x, -y, {"stitch": 0, "jump": 0x80, "stop": 0xC0}[kind])
    return made + bytes.fromhex("0000f3")


def dst_header(label, count, stops, needles):
    def extent(values):
        return f"{max(0, max(values, default=0)):5}"

    def signed(number):
        return f"{'-' if number < 0 else '+'}{abs(number):5}"

    x, y = [at[0] for at in needles] or [0], [-at[1] for at in needles] or [0]
    fields = [("LA", f"{label:16}"), ("ST", f"{count:7}"), ("CO", f"{stops:3}"), ("+X", extent(x)),
              ("-X", extent([-one for one in x])), ("+Y", extent(y)), ("-Y", extent([-one for one in y])),
              ("AX", signed(x[-1])), ("AY", signed(y[-1])), ("MX", signed(0)), ("MY", signed(0)), ("PD", "******")]
    header = "".join(f"{name}:{value}\r" for name, value in fields).encode()
    assert len(header) == 124
    return (header + b"\x1a").ljust(512)


def dst(*lines, label=""):
    body = dst_records(lines)
    return dst_header(label, len(body) // 3, len(threads_of(lines)) - 1, needles_of(lines)) + body


def exp(*lines, label=""):
    made = b""
    for kind, (x, y) in records(LIMIT["exp"], lines):
        made += {"stitch": b"", "jump": bytes.fromhex("8004"), "trim": bytes.fromhex("80800700"),
                 "stop": bytes.fromhex("80010000")}[kind]
        if kind in ("stitch", "jump"):
            made += bytes([x % 256, -y % 256])
    return made


def pec_move(move, mark=0):
    if not mark and all(-63 <= one <= 62 for one in move):
        return bytes(one % 128 for one in move)
    return b"".join(bytes([0x80 | mark | one % 4096 >> 8, one % 256]) for one in move)


def pec_block(label, threads, needles, body):
    """A block with those records, and blank thumbnails."""
    size = [max(values) - min(values) for values in zip(*needles)] or [0, 0]
    head = b"LA:" + label.encode().ljust(16) + b"\r" + b" " * 12 + bytes.fromhex("ff000626") + b" " * 12
    head += (bytes([len(threads) - 1]) + bytes(threads)).ljust(464)
    assert len(head) == 512
    thumbnails = 528 - 512 + len(body)
    head += b"\0\0" + thumbnails.to_bytes(3, "little") + bytes.fromhex("31fff0")
    head += b"".join(one.to_bytes(2, "little") for one in size) + bytes.fromhex("e001b001")
    return head + body + b"\0" * 228 * (len(threads) + 1)


def block_of(lines, label):
    body, stops = b"", 0
    for kind, move in records(LIMIT["pec"], lines):
        if kind == "trim":
            body += bytes.fromhex("a000a000")
        elif kind == "stop":
            body += bytes.fromhex("feb0") + bytes([2 - stops % 2])
            stops += 1
        else:
            body += pec_move(move, 0x10 if kind == "jump" else 0)
    return pec_block(label, threads_of(lines), needles_of(lines), body + b"\xff")


def pec(*lines, label="", drawn=False):
    return with_thumbnails(lines, b"#PEC0001" + block_of(lines, label), drawn)


def pes(*lines, label="", drawn=False):
    return with_thumbnails(lines, b"#PES0001\x16" + b"\0" * 13 + block_of(lines, label), drawn)


def with_thumbnails(lines, file, drawn):
    made = thumbnails(lines) if drawn else b""
    return file[:len(file) - len(made)] + made


def thumbnails(lines):
    """The thumbnails of a design: of all its blocks, then of each."""
    least, most = [[pick(values) for values in zip(*needles_of(lines))] or [0, 0] for pick in (min, max)]
    size = [high - low for low, high in zip(least, most)]
    full = max(29 * size[0], 39 * size[1], 1)

    def shrunk(length):
        return length * 39 * 29 // full

    def shown(point):
        return tuple(4 + (room - shrunk(long)) // 2 + shrunk(one - low)
                     for one, low, long, room in zip(point, least, size, (39, 29)))

    blocks, last = [], None
    for line in lines:
        word, *numbers = line.split()
        if word == "block":
            blocks.append(set())
        if word not in ("needle", "float"):
            last = None
            continue
        to = shown(map(int, numbers))
        start = last if word == "needle" and last else to
        steps = max(abs(b - a) for a, b in zip(start, to))
        blocks[-1] |= {to} | {tuple((a * (steps - step) + b * step + steps // 2) // steps for a, b in zip(start, to))
                              for step in range(steps)}
        last = to
    return b"".join(bytes(sum(1 << bit for bit in range(8) if (column + bit, row) in lit) for row in range(38)
                          for column in range(0, 48, 8)) for lit in [set().union(*blocks), *blocks])


MAKERS = {"dst": dst, "exp": exp, "pec": pec, "pes": pes, "lst": lst}


class Zeros:
    """A file of that many bytes 0, which takes no room on the disk."""

    def __init__(self, length):
        self.length = length


class Text:
    """A text that begins and ends so: the page doesn't determine what is between."""

    def __init__(self, begins, ends):
        self.begins, self.ends = begins, ends


class SameAs:
    """The content of another file of the folder."""

    def __init__(self, name):
        self.name = name


A_LIST = Text("stitch-list 1\n", "end\n")
A_CERT = Text("redwork-certificate 1\n", "end\n")
A_PICTURE = Text("<svg ", "</svg>\n")


class Folder:
    """A folder in place of a file."""
