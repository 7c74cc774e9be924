#!/usr/bin/env python3
"""Checks that a design sews a drawing, and that its certificate proves that no thread over it has fewer stitches.

`python3 check.py DRAWING FILE CERT` prints `yes`, or on standard error the first reason why not. It was written from
docs/FORMATS.md alone, and shares nothing with `stitch`, whose `check` has the same verdicts.
"""
import re
import sys
from collections import Counter, namedtuple
from struct import unpack

class Refused(Exception):
    """What is wrong and where, as it is printed after `stitch: `."""

def need(holds, fault):
    """Refuses with the fault unless the condition holds."""
    if not holds: raise Refused(fault)

# ---- The drawing. A line is a list of points, and `at` is the number of a line of text.
Block = namedtuple("Block", "at lines given")  # the line of its `color`, its lines, and its starts and ends
Piece = namedtuple("Piece", "block lines junctions given")  # its lines by number, and its start and end by word

def number(at, word, least, most):
    """The number that a word is: digits, with a minus sign before them if it is negative."""
    need(re.fullmatch(rb"-?[0-9]+", word), f"line {at}: not a number")
    need(least <= float(word) <= most, f"line {at}: number out of range")  # of any length
    return int(float(word))

def read_drawing(text):
    """The pieces of a drawing and its step."""
    lines = re.findall(rb"[^\n]*\n|[^\n]+", text)
    rows = [re.findall(rb"[^ \t\n]+", re.sub(rb"\r\n?\Z", b"", line)) or [b"#"] for line in lines]
    rows = [(at, *row) for at, row in enumerate(rows, 1) if not row[0].startswith(b"#")]
    end, head, blocks, totals = len(lines) + 1, {}, [], Counter()
    need(rows and rows[0][1:] in [(b"redwork", version) for version in (b"1", b"2", b"3")],
         f"line {rows[0][0] if rows else end}: not a redwork drawing")
    for at, kind, *words in rows[1:]:
        unknown = f"line {at}: word not understood"
        if kind in (b"name", b"step"):
            shape = rb"[!-~]{1,16}" if kind == b"name" else rb"[^ ]+"
            need(re.fullmatch(shape, b" ".join(words)) and kind not in head and not blocks, unknown)
            head[kind] = number(at, words[0], 1, 2047) if kind == b"step" else words[0]
        elif kind == b"color":
            need(len(words) == 1, unknown)
            number(at, words[0], 0, 255)
            for block in blocks[-1:]: need(block.lines, f"line {block.at}: block without a line")
            need(len(blocks) < 255, f"line {at}: more than 255 blocks")
            blocks.append(Block(at, [], []))
        else:
            need(kind == b"line" or kind in (b"start", b"end") and rows[0][2] == b"3", unknown)
            need(blocks, f"line {at}: no block")
            need(kind == b"line" or len(words) == 2, unknown)
            numbers = [number(at, word, -30000, 30000) for word in words]
            points = list(zip(numbers[0::2], numbers[1::2]))
            if kind != b"line": blocks[-1].given.append((at, kind, points[0]))
            else:
                need(len(numbers) >= 4 and len(numbers) % 2 == 0, f"line {at}: too few points")
                need(all(a != b for a, b in zip(points, points[1:])), f"line {at}: point repeated")
                totals.update(lines=1, points=len(points), steps=cost(points, head.get(b"step", 25)))
                refuse_large(at, totals)
                blocks[-1].lines.append(points)
    for block in blocks[-1:]: need(block.lines, f"line {block.at}: block without a line")
    need(blocks, f"line {end}: no block")
    return make_pieces(end, blocks, rows[0][2] != b"1"), head.get(b"step", 25)

def refuse_large(at, totals):
    """Refuses more than a drawing can hold."""
    for what, most in (("lines", 1024), ("points", 65536), ("steps", 200000)):
        need(totals[what] <= most, f"line {at}: more than {most} {what}")

def make_pieces(at, blocks, cut):
    """The pieces of the blocks, whose lines are first cut at shared points if so wanted."""
    parts = [sections(block.lines) if cut else block.lines for block in blocks]
    sizes = [len(points) for lines in parts for points in lines]
    refuse_large(at, Counter(lines=len(sizes), points=sum(sizes)))
    pieces, first = [], 1
    for block, lines in zip(blocks, parts):
        made = [Piece(block, dict(group), list(dict.fromkeys(ends_of(group))), {})
                for group in connected(list(enumerate(lines, first)))]
        for at, kind, point in block.given:
            here = [piece for piece in made if point in piece.junctions]
            need(here, f"line {at}: not a junction")
            need(kind not in here[0].given, f"line {at}: start or end repeated")
            here[0].given[kind] = point
        pieces, first = pieces + made, first + len(lines)
    return pieces

def sections(lines):
    """The lines of a block, cut at each point inside that the block lists several times."""
    listed, parts = Counter(point for points in lines for point in points), []
    for points in lines:
        cuts = [place for place in range(1, len(points) - 1) if listed[points[place]] > 1]
        parts += [points[a:b + 1] for a, b in zip([0] + cuts, cuts + [len(points) - 1])]
    return parts

def ends_of(lines):
    """The ends of numbered lines, of each its first point before its last."""
    return [end for _, points in lines for end in (points[0], points[-1])]

def connected(lines):
    """The numbered lines of a block as groups of connected ones, in the order of their first lines."""
    groups = []
    for line in lines:
        met = [group for group in groups if not set(ends_of([line])).isdisjoint(ends_of(group))]
        groups = [group for group in groups if group not in met] + [sum(met, []) + [line]]
    return sorted(sorted(group) for group in groups)

def cost(points, step):
    """The steps along points: in each segment the fewest that aren't longer than the step on either axis."""
    return sum((max(abs(c - a), abs(d - b)) + step - 1) // step for (a, b), (c, d) in zip(points, points[1:]))

def needle_points(points, step):
    """The needle points along points: the steps of a segment are equal, rounded down to whole tenths."""
    counts = [cost(pair, step) for pair in zip(points, points[1:])]
    return points[:1] + [(a + (c - a) * k // n, b + (d - b) * k // n)
                         for (a, b), (c, d), n in zip(points, points[1:], counts) for k in range(1, n + 1)]

# ---- The design. Each reader gives records: the byte where it begins, its commands, and its move.
def read_acts(records):
    """The acts of commands: needles and floats with their points, stops, and trims of a thread not loose."""
    acts, x, y, loose, before, count = [], 0, 0, True, None, 0
    for at, kind, dx, dy in ((at, kind, dx, dy) for at, kinds, dx, dy in records for kind in kinds.split()):
        if kind in ("stitch", "jump"): x, y = x + dx, y + dy
        need(max(abs(x), abs(y)) <= (30000 if kind == "stitch" else 32767), f"byte {at}: point out of range")
        need(count < 1000000, f"byte {at}: more than 1000000 commands")
        if kind == "stitch": acts.append(("float" if before == "jump" and not loose else "needle", (x, y)))
        if kind == "stop" or kind == "trim" and not loose: acts.append((kind, None))
        loose = kind in ("trim", "stop") or loose and kind == "jump"
        before, count = kind, count + 1
    return acts

# What the bits of the three bytes of a DST record add: bits 0 to 3 to x, and bits 7 to 4 to y, which points upwards.
DST_BITS = (1, -1, 9, -9), (3, -3, 27, -27), (0, 0, 81, -81)

def read_dst(data):
    """The records of Tajima DST: three bytes each, after a header of 512."""
    need(len(data) >= 512, f"byte {len(data)}: file too short")
    jumps = 0
    for at in range(512, len(data) - 2, 3):
        record = data[at:at + 3]
        if record[2] & 0xF3 == 0xF3: return
        flags = record[2] >> 6 if record[2] & 3 == 3 else 0
        need(flags != 1, f"byte {at}: sequin")
        bits = [(byte, bit, value) for byte, values in zip(record, DST_BITS) for bit, value in enumerate(values)]
        x = sum(value for byte, bit, value in bits if byte >> bit & 1)
        y = sum(value for byte, bit, value in bits if byte << bit & 0x80)
        jumps = jumps + 1 if flags == 2 else 0
        stop = "stop" if (x, y) == (0, 0) else "stop jump"
        yield at, ("stitch", None, "trim jump" if jumps == 3 else "jump", stop)[flags], x, -y

def read_exp(data):
    """The records of Melco EXP: two bytes each, or four if the first is 80."""
    at = 0
    while at < len(data) and at + (4 if data[at] == 0x80 else 2) <= len(data):
        code, move = (data[at + 1], at + 2) if data[at] == 0x80 else (2, at)
        x, y = unpack("bb", data[move:move + 2])
        stop = "stop" if (x, y) == (0, 0) else "stop jump"
        kinds = {1: stop, 2: "stitch", 4: "jump", 0x80: "trim"}
        need(code in kinds, f"byte {at}: control code not known")
        yield at, kinds[code], x, -y
        at = move + 2

def read_pec(data, signature=b"#PEC"):
    """The records of a PEC block. It is at offset 8 of a PEC file, and a PES file gives the offset."""
    need(data[:4] == signature, "byte 0: signature not known")
    at = 528 + (8 if signature == b"#PEC" else int.from_bytes(data[8:12], "little"))
    need(len(data) >= at, f"byte {len(data)}: file too short")  # as is each PES file of fewer than 12 bytes
    while at < len(data) and data[at] != 0xFF:
        x, x_marks, middle = coordinate(data, at)
        y, y_marks, end = coordinate(data, middle)
        kinds = ("stitch", "jump", "trim jump", "jump")[(x_marks | y_marks) >> 4 & 3]
        if data[at:at + 2] == b"\xFE\xB0": kinds, end = "stop", at + 3
        if end > len(data): return
        yield at, kinds, x, y
        at = end

def coordinate(data, at):
    """A coordinate of a PEC record, the byte with its marks, and the offset after it."""
    first, second = (data[at:at + 2] + b"\0\0")[:2]
    bits, value = (7, first) if first < 0x80 else (12, (first & 0x0F) << 8 | second)
    signed = value - (value >> bits - 1 << bits)
    return signed, first if bits == 12 else 0, at + (2 if bits == 12 else 1)

LIST_LINES = [rb"stitch-list 1", rb"label \[([ -~]{0,15}[!-~])?\]", rb"block (0|[1-9][0-9]*)",
              rb"block (0|[1-9][0-9]*)|(needle|float)( (0|-?[1-9][0-9]*)){2}|trim|end"]

def read_list(data):
    """The records of a stitch list. `room` is that of its acts, and `here` is the last needle."""
    at, kind, loose, room, blocks, here = 0, None, True, 0, 0, (0, 0)
    for place, line in enumerate(data.split(b"\n")[:-1]):
        unknown = f"byte {at}: control code not known"
        fits = kind != b"end" and len(line) <= 32 and re.fullmatch(LIST_LINES[min(place, 3)], line)
        need(fits, unknown if place > 0 else "byte 0: signature not known")
        kind, *words = line.split(b" ")
        numbers = [int(word) for word in words] if place > 1 else []
        if len(numbers) == 2:
            need(max(map(abs, numbers)) <= 30000, f"byte {at}: point out of range")
            jumps = cost([here, numbers], 2047)
            need(not loose if kind == b"float" else loose or jumps <= 1, unknown)
            room += jumps + 1 + (jumps >= 3) if loose else max(jumps, 1) + 1 if kind == b"float" else 1
            if kind == b"float": yield at, "jump", 0, 0
            yield at, "stitch", numbers[0] - here[0], numbers[1] - here[1]
            here, loose = numbers, False
        elif kind == b"trim":
            need(not loose, unknown)
            yield at, "trim", 0, 0
            loose, room = True, room + 4
        elif kind == b"block":
            need(numbers[0] <= 255 and blocks < 255, unknown)
            if blocks > 0: yield at, "stop", 0, 0
            loose, room, blocks = True, room + (blocks > 0), blocks + 1
        need(room <= 1000000, f"byte {at}: more than 1000000 commands")
        at += len(line) + 1
    need(kind == b"end", f"byte {len(data)}: file too short")
    need(at == len(data), f"byte {at}: control code not known")

# ---- The certificate. Each piece has a retraced cost, a walk, and cuts: a weight and junctions.
AFTER = {None: [b"redwork-certificate"], b"redwork-certificate": [b"piece", b"end"], b"piece": [b"walk"],
         b"walk": [b"cut", b"piece", b"end"], b"cut": [b"cut", b"piece", b"end"], b"end": []}
CERT_LINE = re.compile(rb"redwork-certificate 1|piece (0|[1-9][0-9]{0,9})|walk( -?[1-9][0-9]{0,9})+|cut( [1-9][0-9]{0,9})+|end")

def read_certificate(text):
    """The pieces of a certificate."""
    pieces, last, lines = [], None, text.split(b"\n")
    for at, line in enumerate(lines[:-1], 1):
        kind, *words = line.split(b" ")
        fits = kind in AFTER[last] and CERT_LINE.fullmatch(line)
        numbers, last = [int(word) for word in words] if fits else [], kind
        fits = fits and max(map(abs, numbers), default=0) <= 4294967295
        rises = kind != b"cut" or numbers[1:] == sorted(set(numbers[1:]))
        if not (fits and rises): raise Refused(f"line {at}: not a certificate")
        if kind == b"piece": pieces.append((numbers[0], [], []))
        if kind == b"walk": pieces[-1][1].extend(numbers)
        if kind == b"cut": pieces[-1][2].append((numbers[0], numbers[1:]))
    need(last == b"end" and not lines[-1], f"line {len(lines)}: not a certificate")
    return pieces

# ---- The verdict.
def judge(pieces, step, acts, certificate):
    """Refuses with the first reason why the acts and the certificate aren't right for the drawing."""
    counts, wanted = (len(certificate), len(pieces)), []
    need(counts[0] == counts[1], f"no: certificate has {counts[0]} pieces, drawing has {counts[1]}")
    for place, (piece, (retraced, walk, cuts)) in enumerate(zip(pieces, certificate), 1):
        name, costs = f"no: piece {place}", {line: cost(points, step) for line, points in piece.lines.items()}
        judge_walk(name, piece, walk)
        found = sum(costs[abs(line)] for line in walk) - sum(costs.values())
        need(retraced == found, f"{name}: retraced {retraced} said, {found} found")
        judge_cuts(name, piece, costs, cuts)
        halves = sum(weight for weight, _ in cuts)
        need(halves == 2 * retraced, f"{name}: cuts give {halves} halves, needed {2 * retraced}")
        if wanted and piece.block != pieces[place - 2].block: wanted.append(("stop", None))
        wanted += [("needle", point) for point in needle_points(walk_points(piece, walk), step)] + [("trim", None)]
    for place in range(max(len(wanted), len(acts))):
        need(wanted[place:place + 1] == acts[place:place + 1], f"no: act {place + 1} differs")

def ends_given(piece):
    """The start and the end of a piece, or None twice. One alone is both."""
    start, end = piece.given.get(b"start"), piece.given.get(b"end")
    return start or end, end or start

def judge_walk(name, piece, walk):
    """Refuses a walk that doesn't fit its piece."""
    first, here, (start, end) = None, None, ends_given(piece)
    for place, line in enumerate(walk, 1):
        if abs(line) not in piece.lines: raise Refused(f"{name}: pass {place} is not a line of the piece")
        points = piece.lines[abs(line)]
        begin, after = (points[0], points[-1])[::1 if line > 0 else -1]
        if here not in (None, begin): raise Refused(f"{name}: pass {place} does not start where the one before ends")
        first, here = first or begin, after
    need(start in (None, first), f"{name}: walk does not begin at its start")
    need(end in (None, here), f"{name}: walk does not end at its end")
    need(start or first == here, f"{name}: walk is not closed")
    sewn = set(map(abs, walk))
    for line in piece.lines: need(line in sewn, f"{name}: line {line} is not sewn")

def walk_points(piece, walk):
    """The points along a walk."""
    path = []
    for line in walk:
        points = piece.lines[abs(line)][::1 if line > 0 else -1]
        path += points[1:] if path else points
    return path

def judge_cuts(name, piece, costs, cuts):
    """Refuses a cut that isn't odd, and a line that carries more than two halves for each of its steps."""
    start, end = ends_given(piece)
    degrees, leading = Counter(ends_of(piece.lines.items())), dict.fromkeys(piece.junctions, 0)
    odd = {point for point, degree in degrees.items() if degree % 2} ^ {start} ^ {end}
    odd = {junction for junction, point in enumerate(piece.junctions, 1) if point in odd}
    # A set of lines is a number with a bit for each. A line is in that of a junction if one end of it alone is there.
    for place, points in enumerate(piece.lines.values()):
        for point in (points[0], points[-1]): leading[point] ^= 1 << place
    leading, loads = [0, *leading.values()], [0] * 64
    for place, (weight, members) in enumerate(cuts, 1):
        found, out = len(odd.intersection(members)), 0
        for each in members:
            if each >= len(leading): raise Refused(f"{name}: cut {place} names junction {each}")
            out ^= leading[each]
        if found % 2 == 0: raise Refused(f"{name}: cut {place} holds {found} odd junctions")
        add(loads, out, weight)
    for place, line in enumerate(piece.lines):
        halves = sum((lines >> place & 1) << bit for bit, lines in enumerate(loads))
        need(halves <= 2 * costs[line], f"{name}: line {line} carries {halves} halves, allowed {2 * costs[line]}")

def add(loads, lines, weight):
    """Adds a weight to the loads of a set of lines, all at once: of each bit of the loads there is the set of lines that have it."""
    for bit in range(weight.bit_length()):
        carry = lines * (weight >> bit & 1)
        while carry: loads[bit], carry, bit = loads[bit] ^ carry, loads[bit] & carry, bit + 1

# ---- The program.
READERS = {"dst": read_dst, "exp": read_exp, "pec": read_pec, "lst": read_list}
READERS["pes"] = lambda data: read_pec(data, b"#PES")

def read(name, reader):
    """What a reader makes of the bytes of a file."""
    with open(name, "rb") as file: data = file.read(67108865)
    try:
        need(len(data) <= 67108864, "longer than 67108864 bytes")
        return reader(data)
    except Refused as fault: raise Refused(f"{name}: {fault}") from None

def run(words):
    """The exit status and the line for a drawing, a design and a certificate, read in this order."""
    ending = words[1].rpartition(".")[2].lower() if len(words) == 3 and "." in words[1] else None
    fit = all(1 <= len(word.encode(errors="surrogateescape")) <= 4096 for word in words)
    if ending not in READERS or not fit: return 2, "usage: check.py DRAWING FILE CERT"
    try:
        pieces, step = read(words[0], read_drawing)
        acts = read(words[1], lambda data: read_acts(READERS[ending](data)))
        judge(pieces, step, acts, read(words[2], read_certificate))
    except Refused as fault: return 1, f"stitch: {fault}"
    except OSError as fault: return 3, f"stitch: cannot read {fault.filename}"
    return 0, "yes"

if __name__ == "__main__":
    status, report = run(sys.argv[1:])
    (sys.stderr if status else sys.stdout).buffer.write(report.encode(errors="surrogateescape") + b"\n")
    sys.exit(status)
