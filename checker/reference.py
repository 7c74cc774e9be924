#!/usr/bin/env python3
"""What `stitch` prints and writes, computed from docs/FORMATS.md and man/stitch.1 alone, with the readers of check.py.

`run(words, files)` gives the status, standard output, standard error and the files after a command over the contents of
files by name. It has `show`, `convert`, `edit`, `hoop`, `trace`, `migrate` and `check`. It shares nothing with `stitch`.
"""
import re
from collections import Counter, namedtuple

import check
from check import Refused, need

LIMITS = {"dst": 121, "exp": 127, "pec": 2047, "pes": 2047, "lst": 2047}
STOPS = {"dst": 999, "exp": 1000000, "pec": 254, "pes": 254, "lst": 254}
USAGE = 2, "", None, {}

# A command has its kind and its point. An act has the number of its command from 1, its kind and its point.
Design = namedtuple("Design", "label threads commands ended")
Act = namedtuple("Act", "number kind point loose")


class Unreadable(Exception):
    """An input that doesn't exist."""


# ---- What a file holds.


def printable(field):
    """A label of a header: bytes that aren't printable are question marks, and spaces at its end are dropped."""
    if field[:3] != b"LA:":
        return ""
    return "".join(chr(byte) if 0x20 <= byte <= 0x7E else "?" for byte in field[3:19]).rstrip(" ")


def block_offset(data, ending):
    """Where the PEC block of a file begins."""
    return 8 if ending == "pec" else int.from_bytes(data[8:12], "little")


def label_of(data, ending):
    if ending == "dst":
        return printable(data[:19])
    if ending in ("pec", "pes"):
        at = block_offset(data, ending)
        return printable(data[at:at + 19])
    return data.split(b"\n")[1][7:-1].decode() if ending == "lst" else ""


def threads_of(data, ending):
    """The threads that a file has. Blocks beyond them have the number of the block."""
    if ending in ("pec", "pes"):
        at = block_offset(data, ending) + 48
        return [] if data[at] == 255 else list(data[at + 1:at + 2 + data[at]])
    return [int(number) for number in re.findall(rb"^block (\d+)$", data, re.M)] if ending == "lst" else []


def has_end(data, ending):
    """Whether a file has its end. One of EXP has it unless its last unit is cut off."""
    if ending == "dst":
        return any(data[at + 2] & 0xF3 == 0xF3 for at in range(512, len(data) - 2, 3))
    if ending == "exp":
        at = 0
        while at < len(data):
            at += 4 if data[at] == 0x80 else 2
        return at == len(data)
    if ending in ("pec", "pes"):
        at = block_offset(data, ending) + 528
        while at < len(data) and data[at] != 0xFF:
            if data[at:at + 2] == b"\xFE\xB0":
                at += 3
            else:
                at = check.coordinate(data, check.coordinate(data, at)[2])[2]
        return at < len(data)
    return True


def read_design(name, files):
    """The design of a file by name, or why it is none."""
    data, ending = contents(name, files), ending_of(name)
    commands, x, y = [], 0, 0
    try:
        records = check.READERS[ending](data)
        for at, kind, dx, dy in ((at, kind, dx, dy) for at, kinds, dx, dy in records for kind in kinds.split()):
            if kind in ("stitch", "jump"):
                x, y = x + dx, y + dy
            most = {"stitch": 30000, "jump": 32767}.get(kind, 1 << 40)
            need(max(abs(x), abs(y)) <= most, f"byte {at}: point out of range")
            need(len(commands) < 1000000, f"byte {at}: more than 1000000 commands")
            commands.append((kind, (x, y)))
    except Refused as fault:
        raise Refused(f"{name}: {fault}") from None
    return Design(label_of(data, ending), threads_of(data, ending), commands, has_end(data, ending))


def contents(name, files):
    if name not in files:
        raise Unreadable(name)
    need(len(files[name]) <= 67108864, f"{name}: longer than 67108864 bytes")
    return files[name]


def ending_of(name):
    """The ending of a file's name, if it is a format's."""
    ending = name.rpartition(".")[2].lower() if "." in name else None
    return ending if ending in LIMITS else None


def acts_of(commands):
    """The acts of commands."""
    acts, loose, before = [], True, None
    for number, (kind, point) in enumerate(commands, 1):
        if kind == "stitch":
            acts.append(Act(number, "float" if before == "jump" and not loose else "needle", point, loose))
            loose = False
        elif kind == "stop" or kind == "trim" and not loose:
            acts.append(Act(number, kind, None, loose))
            loose = True
        before = kind
    return acts


def blocks_of(commands):
    return 1 + sum(kind == "stop" for kind, _ in commands)


def thread_of(threads, block):
    """The thread of a block, counted from 0."""
    return threads[block] if block < len(threads) else block % 64 + 1


def counts_line(acts):
    count = Counter("needle" if act.kind == "float" else act.kind for act in acts)
    return f"needles {count['needle']} trims {count['trim']} stops {count['stop']}\n"


def needles_of(acts):
    return [act.point for act in acts if act.point]


# ---- What is written.


def far(a, b):
    """A distance on the larger axis."""
    return max(abs(a[0] - b[0]), abs(a[1] - b[1]))


def parts(a, b, count):
    """The points of a way in that many parts but its first one, each rounded down."""
    return [tuple(p + (q - p) * k // count for p, q in zip(a, b)) for k in range(1, count + 1)]


def records(acts, ending, name):
    """The kinds and the moves that are written for acts, or the first act that can't be written."""
    limit, at, room, stops, made = LIMITS[ending], (0, 0), 0, 0, []
    for act in acts:
        fault = f"{name}: command {act.number}: "
        if act.point:
            hops = -(-far(at, act.point) // limit)
            if act.kind == "float":
                hops = max(hops, 1)
                need(ending != "dst" or hops <= 3, fault + "float too long")
            elif not act.loose:
                need(hops <= 1, fault + f"stitch longer than {limit}")
            room += hops + 1 + (hops >= 3) if act.loose else hops + 1 if act.kind == "float" else 1
            ways = parts(at, act.point, hops) if act.loose or act.kind == "float" else []
            moves = [(x - a, y - b) for (a, b), (x, y) in zip([at] + ways, ways)]
            if ending == "lst":
                made.append((act.kind, act.point))
            elif not act.loose and act.kind == "needle":
                made.append(("stitch", (act.point[0] - at[0], act.point[1] - at[1])))
            elif ending == "dst" and act.kind == "float" and hops == 3:
                made += [("jump", move) for move in moves[:2]] + [("stitch", moves[2])]
            else:
                made += [("jump", move) for move in moves] + [("stitch", (0, 0))]
            at = act.point
        else:
            made.append((act.kind, (0, 0)))
            stops += act.kind == "stop"
            need(act.kind != "stop" or stops <= STOPS[ending], fault + "too many stops")
            room += 4 if act.kind == "trim" else 1
        need(room <= 1000000, fault + "more than 1000000 commands written")
    return made


def dst_record(x, y, flags):
    """A record of a move in balanced ternary; the file's y points upwards."""
    record = bytearray([0, 0, flags | 3])
    bits = {value: (place, bit) for place, values in enumerate(check.DST_BITS) for bit, value in enumerate(values)}
    for rest, mask in ((x, lambda bit: 1 << bit), (-y, lambda bit: 0x80 >> bit)):
        for value in (81, 27, 9, 3, 1):
            if abs(rest) > value // 2:
                value = value if rest > 0 else -value
                place, bit = bits[value]
                record[place] |= mask(bit)
                rest -= value
    return bytes(record)


def dst_bytes(design, acts, made):
    body, needles = b"", needles_of(acts)
    for kind, (x, y) in made:
        body += bytes.fromhex("824183828283824183") if kind == "trim" else dst_record(
            x, y, {"stitch": 0, "jump": 0x80, "stop": 0xC0}[kind])
    body += b"\0\0\xF3"
    xs, ys = [x for x, _ in needles] or [0], [-y for _, y in needles] or [0]
    extents = [("+X", max(xs)), ("-X", -min(xs)), ("+Y", max(ys)), ("-Y", -min(ys))]
    signs = [("AX", xs[-1]), ("AY", ys[-1]), ("MX", 0), ("MY", 0)]
    fields = [f"LA:{design.label:16}", f"ST:{len(body) // 3:7}", f"CO:{blocks_of(made) - 1:3}"]
    fields += [f"{name}:{max(0, value):5}" for name, value in extents]
    fields += [f"{name}:{'-' if value < 0 else '+'}{abs(value):5}" for name, value in signs] + ["PD:******"]
    return ("".join(field + "\r" for field in fields).encode() + b"\x1A").ljust(512) + body


def exp_bytes(_design, _acts, made):
    heads = {"stitch": b"", "jump": b"\x80\x04", "stop": b"\x80\x01\0\0", "trim": b"\x80\x80\x07\0"}
    return b"".join(heads[kind] + (bytes([x % 256, -y % 256]) if kind in ("stitch", "jump") else b"")
                    for kind, (x, y) in made)


def pec_block(design, acts, made):
    body, stops, needles = b"", 0, needles_of(acts)
    for kind, move in made:
        if kind == "stop":
            body, stops = body + bytes([0xFE, 0xB0, 1 + (stops + 1) % 2]), stops + 1
        elif kind == "trim":
            body += b"\xA0\0\xA0\0"
        elif kind == "stitch" and all(-63 <= number <= 62 for number in move):
            body += bytes(number % 128 for number in move)
        else:
            mark = 0x90 if kind == "jump" else 0x80
            body += b"".join(bytes([mark | number % 4096 >> 8, number % 256]) for number in move)
    threads = [thread_of(design.threads, block) for block in range(stops + 1)]
    size = [max(values) - min(values) for values in zip(*needles)] or [0, 0]
    words = b"".join(number.to_bytes(2, "little") for number in size)
    head = b"LA:" + design.label.encode().ljust(16) + b"\r" + b" " * 12 + b"\xFF\0\x06\x26" + b" " * 12
    head = (head + bytes([stops] + threads)).ljust(512)
    return (head + b"\0\0" + (len(body) + 17).to_bytes(3, "little") + b"\x31\xFF\xF0" + words + b"\xE0\x01\xB0\x01"
            + body + b"\xFF" + bytes(228 * (stops + 2)))


def list_bytes(design, _acts, made):
    lines, block = ["stitch-list 1", f"label [{design.label}]", f"block {thread_of(design.threads, 0)}"], 0
    for kind, point in made:
        block += kind == "stop"
        lines.append(f"block {thread_of(design.threads, block)}" if kind == "stop" else kind if kind == "trim"
                     else f"{kind} {point[0]} {point[1]}")
    return "".join(line + "\n" for line in lines + ["end"]).encode()


WRITERS = {"dst": dst_bytes, "exp": exp_bytes, "pec": lambda *what: b"#PEC0001" + pec_block(*what),
           "pes": lambda *what: b"#PES0001\x16" + bytes(13) + pec_block(*what), "lst": list_bytes}


def written(design, name):
    """The report of a design and the file that it is written to."""
    acts, ending = acts_of(design.commands), ending_of(name)
    made = records(acts, ending, name)
    label = "" if ending == "exp" else design.label
    return counts_line(acts), {name: WRITERS[ending](design._replace(label=label), acts, made)}


# ---- Refits and edits.


def refitted(design, limit, split, cut, name):
    """A design whose long stitches are split, and whose floats are trims. Only its acts stay."""
    commands, at = [], (0, 0)
    for act in acts_of(design.commands):
        if act.kind == "float":
            commands += [("trim", at)] if cut else [("jump", act.point)]
        if act.point:
            hops = -(-far(at, act.point) // limit)
            is_split = split and act.kind == "needle" and not act.loose and hops > 1
            commands += [("stitch", point) for point in (parts(at, act.point, hops) if is_split else [act.point])]
            at = act.point
        else:
            commands.append((act.kind, at))
        need(len(commands) <= 1000000, f"{name}: command {act.number}: too many commands")
    return design._replace(commands=commands)


def convert(words, files):
    source, target, *refits = words
    if sorted(refits) not in ([], ["--cut"], ["--split"], ["--cut", "--split"]):
        return None
    design = read_design(source, files)
    if refits:
        design = refitted(design, LIMITS[ending_of(target)], "--split" in refits, "--cut" in refits, target)
    return written(design, target)


EDITS = [(re.compile(rb"shift=(-?\d+),(-?\d+)"), "shift", [(-60000, 60000)] * 2),
         (re.compile(rb"turn=(-?\d+)"), "turn", [(0, 3)]), (re.compile(rb"mirror=(x|y)"), "mirror", None),
         (re.compile(rb"thread=(-?\d+),(-?\d+)"), "thread", [(1, 255), (0, 255)])]


def edit_of(word):
    """The edit that a word is: its name and its numbers, or the axis of a mirror."""
    for form, name, ranges in EDITS:
        found = form.fullmatch(word.encode())
        if found and ranges is None:
            return name, found[1].decode()
        if found and all(low <= float(text) <= high for text, (low, high) in zip(found.groups(), ranges)):
            return name, [int(text) for text in found.groups()]
    return None


def moved(commands, change, name):
    made = []
    for number, (kind, point) in enumerate(commands, 1):
        x, y = change(*point)
        most = {"stitch": 30000, "jump": 32767}.get(kind, 1 << 40)
        need(max(abs(x), abs(y)) <= most, f"{name}: command {number}: moved out of range")
        made.append((kind, (x, y)))
    return made


TURNS = [lambda x, y: (x, y), lambda x, y: (-y, x), lambda x, y: (-x, -y), lambda x, y: (y, -x)]
MIRRORS = {"x": lambda x, y: (-x, y), "y": lambda x, y: (x, -y)}


def edited(design, edit, name):
    kind, numbers = edit
    if kind == "thread":
        block, thread = numbers
        count = blocks_of(design.commands)
        need(block <= count, f"{name}: no colour place {block}, there are {count}")
        threads = design.threads + [thread_of([], at) for at in range(len(design.threads), block)]
        return design._replace(threads=threads[:block - 1] + [thread] + threads[block:])
    if kind == "shift":
        change = lambda x, y: (x + numbers[0], y + numbers[1])  # noqa: E731
    else:
        change = TURNS[numbers[0]] if kind == "turn" else MIRRORS[numbers]
    return design._replace(commands=moved(design.commands, change, name))


def edit(words, files):
    source, target, *rest = words
    edits = [edit_of(word) for word in rest]
    if not edits or None in edits:
        return None
    design = read_design(source, files)
    for one in edits:
        design = edited(design, one, source)
    return written(design, target)


# ---- Reports.


def show(words, files):
    design, ending = read_design(words[0], files), ending_of(words[0])
    acts = acts_of(design.commands)
    needles = needles_of(acts)
    count = Counter(block_numbers(acts))
    corners = [f(values) for f in (min, max) for values in zip(*needles)]
    trims, stops = (sum(act.kind == kind for act in acts) for kind in ("trim", "stop"))
    lines = [f"format {ending}", f"label [{design.label}]", f"commands {len(design.commands)}", f"needles {len(needles)}",
             f"trims {trims}", f"stops {stops}", "extent " + (" ".join(map(str, corners)) or "none"),
             "ended " + ("yes" if design.ended else "no")]
    lines += [f"block {block + 1} thread {thread_of(design.threads, block)} needles {count[block]}" for block in range(stops + 1)]
    return "".join(line + "\n" for line in lines), {}


def block_numbers(acts):
    """The block of each needle, counted from 0."""
    block = 0
    for act in acts:
        block += act.kind == "stop"
        if act.point:
            yield block


def side_of(word):
    return int(word) if re.fullmatch(r"[0-9]+", word) and 1 <= float(word) <= 60000 else None


def hoop(words, files):
    sides = side_of(words[1]), side_of(words[2])
    if None in sides:
        return None
    needles = needles_of(acts_of(read_design(words[0], files).commands))
    size = [max(values) - min(values) for values in zip(*needles)] or [0, 0]
    if size[0] <= sides[0] and size[1] <= sides[1]:
        return "fits upright\n", {}
    if size[0] <= sides[1] and size[1] <= sides[0]:
        return "fits turned\n", {}
    over = [max(0, length - side) for length, side in zip(size, sides)]
    raise Refused(f"too large by {over[0]} {over[1]}")


# ---- Drawings.


def drawing_text(label, step, blocks):
    """The canonical text of a drawing of version 2: blocks of a thread and lines."""
    lines = ["redwork 2"] + ([f"name {label}"] if label else []) + [f"step {step}"]
    for thread, parts_of in blocks:
        lines.append(f"color {thread}")
        lines += ["line " + " ".join(f"{x} {y}" for x, y in points) for points in parts_of]
    return "".join(line + "\n" for line in lines).encode()


def migrate(words, files):
    text = contents(words[0], files)
    lines = text.split(b"\n")
    rows = [[word for word in re.split(rb"[ \t]", line.removesuffix(b"\r")) if word] for line in lines]
    first = next((at for at, row in enumerate(rows) if row and not row[0].startswith(b"#")), None)
    if first is not None and rows[first] in ([b"redwork", b"1"], [b"redwork", b"3"]):
        lines[first] = b"redwork 2" if rows[first][1] == b"1" else b"redwork 4"
    try:
        pieces, step = check.read_drawing(b"\n".join(lines))
    except Refused as fault:
        raise Refused(f"{words[0]}: {fault}") from None
    head = {row[0]: row[1] for row in rows if row and row[0] in (b"name",)}
    threads = [int(row[1]) for row in rows if row and row[0] == b"color"]
    blocks = list(dict.fromkeys(piece.block.at for piece in pieces))
    numbered = sorted((number, piece.block.at, points) for piece in pieces for number, points in piece.lines.items())
    made = [(thread, [points for _, at, points in numbered if at == block]) for thread, block in zip(threads, blocks)]
    cost = sum(check.cost(points, step) for _, _, points in numbered)
    label = head.get(b"name", b"").decode()
    return (f"lines {len(numbered)} pieces {len(pieces)} cost {cost}\n", {words[1]: drawing_text(label, step, made)})


def chains_of(acts, name):
    """For each block its chains of new links, and the greatest size of a link and how many there are."""
    blocks, seen, chain, before, most, links = [[]], set(), None, None, 0, 0
    for act in acts:
        if act.kind == "stop":
            blocks, seen, chain, before = blocks + [[]], set(), None, None
        elif act.kind == "trim":
            chain, before = None, None
        elif act.point == before:
            continue
        else:
            if before is None or act.kind == "float" or act.loose:
                chain = None
            else:
                size, link = far(before, act.point), frozenset([before, act.point])
                need(size <= 2047, f"{name}: command {act.number}: link longer than 2047")
                most = max(most, size)
                if link in seen:
                    chain = None
                else:
                    links += 1
                    seen.add(link)
                    if chain is None:
                        chain = [before]
                        blocks[-1].append(chain)
                    chain.append(act.point)
            before = act.point
    return blocks, most, links


def trace(words, files):
    design = read_design(words[0], files)
    blocks, step, links = chains_of(acts_of(design.commands), words[0])
    need(links, f"{words[0]}: nothing is sewn")
    made = [(thread_of(design.threads, block), check.sections(chains)) for block, chains in enumerate(blocks) if chains]
    count, points = sum(len(lines) for _, lines in made), sum(len(line) for _, lines in made for line in lines)
    for what, number, most in (("blocks", len(made), 255), ("lines", count, 1024), ("points", points, 65536)):
        need(number <= most, f"{words[0]}: more than {most} {what}")
    return f"blocks {len(made)} lines {count} links {links}\n", {words[1]: drawing_text(design.label.split(" ")[0], step, made)}


# ---- The program.


def check_files(words, files):
    inputs = [contents(name, files) for name in words[:1]]
    pieces, step = named(words[0], check.read_drawing, inputs[0])
    ending = ending_of(words[1])
    acts = named(words[1], lambda data: check.read_acts(check.READERS[ending](data)), contents(words[1], files))
    check.judge(pieces, step, acts, named(words[2], check.read_certificate, contents(words[2], files)))
    return "yes\n", {}


def named(name, reader, data):
    try:
        return reader(data)
    except Refused as fault:
        raise Refused(f"{name}: {fault}") from None


# Each command, how many words it takes at least and at most, which of its words name stitch files, and which two differ.
COMMANDS = {"show": (show, 1, 1, [0], None), "convert": (convert, 2, 4, [0, 1], (0, 1)), "edit": (edit, 3, 99, [0, 1], (0, 1)),
            "hoop": (hoop, 3, 3, [0], None), "trace": (trace, 2, 2, [0], (0, 1)), "migrate": (migrate, 2, 2, [], (0, 1)),
            "check": (check_files, 3, 3, [1], None)}


def run(words, files):
    """The status, both outputs and the files after a command. Of the usage text nothing is said."""
    if not words or words[0] not in COMMANDS:
        return USAGE
    command, least, most, designs, apart = COMMANDS[words[0]]
    words = words[1:]
    if not least <= len(words) <= most or any(ending_of(words[at]) is None for at in designs) or (
            apart and words[apart[0]] == words[apart[1]]) or not all(1 <= len(word.encode()) <= 4096 for word in words[:2]):
        return USAGE
    try:
        made = command(words, files)
    except Refused as fault:
        return 1, "", f"stitch: {fault}\n", {}
    except Unreadable as name:
        return 3, "", f"stitch: cannot read {name}\n", {}
    return USAGE if made is None else (0, made[0], "", made[1])
