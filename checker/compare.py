#!/usr/bin/env python3
"""Compares the checker beside it with `stitch check`: `python3 compare.py PROGRAM EXAMPLES [COUNT]`.

Both judge the routes of all examples in the five formats, and those of COUNT generated drawings. Each of these is
judged again with one place of its drawing, design or certificate spoiled. Status and line must be equal.
"""
import collections
import os
import random
import re
import subprocess
import sys
import tempfile

import check

ENDINGS = ["dst", "exp", "pec", "pes", "lst"]
TRIPLES = 500
KEYWORDS = b"redwork name step color line start end # x 0 -1 99999 7".split(b" ")
RECORDS = {
    "dst": [b"\x00\x00\x83", b"\x82\x41\x83\x82\x82\x83\x82\x41\x83", b"\x00\x00\xc3", b"\x01\x00\xc3",
            b"\x00\x00\x43", b"\x00\x00\xf3", b"\x01\x00\x03", b"\x00\x00\x03", b"\x00\x00\x00"],
    "exp": [b"\x80\x04\x00\x00", b"\x80\x80\x07\x00", b"\x80\x01\x00\x00", b"\x80\x01\x01\x00",
            b"\x80\x02\x01\x00", b"\x80\x03\x00\x00", b"\x01\x00", b"\x00\x00", b"\x80"],
    "pec": [b"\x90\x00\x90\x00", b"\xa0\x00\xa0\x00", b"\xa0\x00\x90\x00", b"\xfe\xb0\x02", b"\x80\x01\x00",
            b"\x01\x00", b"\x00\x00", b"\xff", b"\xfe"],
    "lst": [b"trim", b"needle 0 0", b"needle 3000 0", b"needle 30001 0", b"float 10 10", b"block 9", b"end",
            b"label []", b"needle 01 0"],
}
RECORDS["pes"] = RECORDS["pec"]
FIRST_RECORD = {"dst": 512, "exp": 0, "pec": 536, "pes": 550, "lst": 0}


# ---- Drawings.


def star(rng):
    """Lines from one point, or from one corner of a triangle."""
    arms = [[(0, 0), (rng.randint(-9, 9), rng.randint(1, 9))] for _ in range(rng.randint(2, 6))]
    return arms + ([[(0, 0), (-3, -3), (3, -3), (0, 0)]] if rng.random() < 0.5 else [])


def comb(rng):
    """A line with teeth, which it lists, as separate lines or as one."""
    size = rng.randint(2, 6)
    spine = [(3 * place, 0) for place in range(size)]
    spines = [spine] if rng.random() < 0.5 else [spine[place:place + 2] for place in range(size - 1)]
    return spines + [[(3 * place, 0), (3 * place, rng.randint(1, 5))] for place in range(size)]


def complete(rng):
    """Four points with a line between any two."""
    points = [(0, 0), (rng.randint(1, 9), 0), (rng.randint(1, 9), 5), (1, rng.randint(6, 9))]
    return [[a, b] for place, a in enumerate(points) for b in points[:place]]


def closed(rng):
    """A closed line, perhaps with a tail or with a chord."""
    ring = [(0, 0), (5, 0), (rng.randint(5, 9), 4), (2, rng.randint(4, 9)), (0, 0)]
    chord = [[ring[1], ring[3]]] if rng.random() < 0.5 else []
    return [ring] + [[(2, 1), (5, 0)]] * rng.randint(0, 2) + chord


def meeting(rng):
    """A long line and one that ends on it, listed or not."""
    long = [(-4, 0), (0, 0), (4, 0)] if rng.random() < 0.7 else [(-4, 0), (4, 0)]
    return [long, [(0, 0), (rng.randint(-2, 2), rng.randint(1, 8))]]


def tangle(rng):
    """Lines through points of a small grid."""
    lines = []
    for _ in range(rng.randint(1, 6)):
        points = [(rng.randint(0, 3), rng.randint(0, 3)) for _ in range(rng.randint(2, 6))]
        points = [b for a, b in zip([None] + points, points) if a != b]
        lines += [points] if len(points) > 1 else []
    return lines or [[(0, 0), (1, 1)]]


SHAPES = [star, comb, complete, closed, meeting, tangle]


def block_lines(rng):
    """The lines of a block: one to three shapes, which may meet."""
    lines = []
    for _ in range(rng.randint(1, 3)):
        scale, x, y = rng.randint(3, 17), rng.randint(-4, 4) * 20, rng.randint(-4, 4) * 20
        lines += [[(x + scale * a, y + scale * b) for a, b in points] for points in rng.choice(SHAPES)(rng)]
    return [points if rng.random() < 0.7 else points[::-1] for points in lines]


def text_of(rng, version, head, blocks, given):
    """The text of a drawing, with blanks and comments here and there."""
    lines = [f"redwork {version}"] + head
    for place, block in enumerate(blocks):
        lines.append(f"color {rng.randint(0, 255)}")
        lines += ["line " + " ".join(f"{x} {y}" for x, y in points) for points in block]
        for line in given.get(place, []):
            lines.insert(len(lines) - rng.choice([0, 0, len(block)]), line)
    lines = [line + rng.choice([""] * 20 + ["\r", " ", "\n# a comment", "\n"]) for line in lines]
    return ("\n".join(lines) + rng.choice(["\n", "\n", "\n", ""])).encode()


def make_drawing(rng, version):
    """The text of a small drawing."""
    head = [line for line in (f"step {rng.randint(4, 60)}", "name small") if rng.random() < 0.7]
    blocks = [block_lines(rng) for _ in range(rng.choice([1, 1, 2, 3]))]
    given = collections.defaultdict(list)
    if version == 3:
        places = {}
        for piece in check.read_drawing(text_of(rng, 2, head, blocks, {}))[0]:
            place = places.setdefault(piece.block.at, len(places))
            for word in ("start", "end"):
                if rng.random() < 0.6:
                    x, y = rng.choice(piece.junctions)
                    given[place].append(f"{word} {x} {y}")
    return text_of(rng, version, head, blocks, given)


# ---- Spoiled triples: each function changes one file in one place.


def replace(data, match, word):
    """The data with a word in place of a match."""
    return data[:match.start()] + word + data[match.end():]


def other_number(rng, word):
    """Another number in place of a word."""
    number = int(word)
    near = [b"%d" % other for other in (number + 1, number - 1, -number, 2 * number + 1)]
    return rng.choice(near + [b"0", b"1", b"0" + word, b"4294967295", b"4294967296", b"x", b""])


def spoil_byte(rng, triple, ending):
    """Another byte in the design, mostly behind the header."""
    data = bytearray(triple[1])
    at = rng.randrange(FIRST_RECORD[ending] if rng.random() < 0.8 else 0, len(data))
    data[at] = (data[at] + rng.randint(1, 255)) % 256
    return triple[0], bytes(data), triple[2]


def spoil_number(rng, triple, _ending):
    """Another number in the certificate."""
    match = rng.choice(list(re.finditer(rb"-?\d+", triple[2])))
    return triple[0], triple[1], replace(triple[2], match, other_number(rng, match.group()))


def spoil_word(rng, triple, _ending):
    """Another word in the drawing."""
    match = rng.choice(list(re.finditer(rb"[^ \n]+", triple[0])))
    word = match.group()
    near = [other_number(rng, word)] * 3 if re.fullmatch(rb"-?\d+", word) else []
    return replace(triple[0], match, rng.choice(KEYWORDS + near * 4)), triple[1], triple[2]


def spoil_pass(rng, triple, _ending):
    """A pass less, more, turned or moved."""
    match = rng.choice(list(re.finditer(rb"walk (.*)", triple[2])))
    passes = match.group(1).split(b" ")
    place = rng.randrange(len(passes))
    change = rng.randrange(5)
    if change == 0:
        passes[place] = b"%d" % -int(passes[place])
    elif change == 1:
        passes[place] = b"%d" % rng.randint(1, 9)
    elif change == 2:
        passes.insert(place, passes[place])
    elif change == 3:
        passes.append(passes.pop(place))
    else:
        del passes[place]
    return triple[0], triple[1], replace(triple[2], match, b" ".join([b"walk"] + passes))


def spoil_weight(rng, triple, ending):
    """Another weight of a cut."""
    cuts = list(re.finditer(rb"(?<=cut )\d+", triple[2]))
    if not cuts:
        return spoil_number(rng, triple, ending)
    match = rng.choice(cuts)
    weight = int(match.group()) + rng.choice([-1, 1, 2, 9])
    return triple[0], triple[1], replace(triple[2], match, b"%d" % weight)


def spoil_member(rng, triple, ending):
    """A member of a cut less, more or changed."""
    cuts = list(re.finditer(rb"cut (\d+)(.*)", triple[2]))
    if not cuts:
        return spoil_number(rng, triple, ending)
    match = rng.choice(cuts)
    members = set(map(int, match.group(2).split()))
    members ^= {rng.choice(sorted(members) + [rng.randint(1, 12)])}
    members |= {rng.randint(1, 12)} if rng.random() < 0.5 else set()
    words = [b"cut", match.group(1)] + [b"%d" % member for member in sorted(members)]
    return triple[0], triple[1], replace(triple[2], match, b" ".join(words))


def spoil_line(rng, triple, ending):
    """A line that is left out or doubled."""
    place = rng.choice([0, 1, 2, 2] if ending == "lst" else [0, 2])
    lines = triple[place].split(b"\n")
    at = rng.randrange(len(lines))
    lines[at:at + 1] = [lines[at]] * rng.choice([0, 2])
    return triple[:place] + (b"\n".join(lines),) + triple[place + 1:]


def spoil_end(rng, triple, _ending):
    """A file that is cut off, or has a byte more."""
    place = rng.randrange(3)
    data = triple[place]
    cut = rng.randrange(len(data)) if rng.random() < 0.5 else max(0, len(data) - rng.randint(1, 20))
    data = data + rng.choice([b"x", b"\n"]) if rng.random() < 0.25 else data[:cut]
    return triple[:place] + (data,) + triple[place + 1:]


def spoil_act(rng, triple, ending):
    """A record more, or one in place of another."""
    record = rng.choice(RECORDS[ending])
    if ending == "lst":
        lines = triple[1].split(b"\n")
        at = rng.randrange(2, len(lines))
        lines[at:at + rng.randint(0, 1)] = [record]
        return triple[0], b"\n".join(lines), triple[2]
    unit = 3 if ending == "dst" else 2
    at = FIRST_RECORD[ending] + unit * rng.randrange((len(triple[1]) - FIRST_RECORD[ending]) // unit + 1)
    after = at + rng.choice([0, unit])
    return triple[0], triple[1][:at] + record + triple[1][after:], triple[2]


SPOILS = [spoil_byte, spoil_number, spoil_word, spoil_pass, spoil_weight, spoil_member, spoil_line, spoil_end,
          spoil_act]


# ---- The comparison.


class Comparison:
    """Runs requests by a function that gives status and last line of each, and counts what was compared."""

    def __init__(self, run_all, folder):
        self.run_all, self.folder, self.reasons = run_all, folder, collections.Counter()

    def names(self, name, ending):
        """The names of a drawing, a design and a certificate."""
        return [os.path.join(self.folder, f"{name}.{word}") for word in ("rw", ending, "cert")]

    def write(self, names, triple):
        """Writes the files of a triple."""
        for name, data in zip(names, triple):
            with open(name, "wb") as file:
                file.write(data)

    def sew(self, requests):
        """Sews drawings, none of which may be refused."""
        for words, (status, line) in zip(requests, self.run_all(requests)):
            if status:
                sys.exit(f"checker: {' '.join(words)}: status {status}: {line}")

    def judge(self, cases, wanted=None):
        """Compares the verdicts of the program and of the checker over named files."""
        for names, theirs in zip(cases, self.run_all([["check"] + names for names in cases])):
            ours = check.run(names)
            if ours != theirs or wanted not in (None, ours[1]):
                sys.exit(f"checker: check {' '.join(names)}\nprogram: {theirs}\nchecker: {ours}")
            self.reasons[re.sub(r"\S*/\S*|\d+", "N", ours[1])] += 1


def triples(comparison, count):
    """Sews generated drawings and yields the names of their files, their contents and their endings."""
    cases, requests = [], []
    for place in range(count):
        rng = random.Random(place)
        ending = ENDINGS[place % 5]
        names = comparison.names(place, ending)
        comparison.write(names, [make_drawing(rng, 1 + place % 3)])
        requests.append(["double" if place % 11 == 10 else "route"] + names)
        cases.append((rng, names, ending))
    comparison.sew(requests)
    return cases


def judge_as_printed(names):
    """Tests what the checker itself prints, and its status."""
    status, line = check.run(names)
    done = subprocess.run([sys.executable, check.__file__] + names, capture_output=True, check=False)
    printed = [b"", line.encode() + b"\n"] if status else [line.encode() + b"\n", b""]
    if [done.returncode, done.stdout, done.stderr] != [status] + printed:
        sys.exit(f"checker: check.py {' '.join(names)}: {done}")


def compare(run_all, folder, examples, count=TRIPLES):
    """Compares the verdicts on examples, on generated triples and on spoiled ones."""
    comparison = Comparison(run_all, folder)
    drawings = sorted(name for name in os.listdir(examples) if name.endswith(".rw"))
    cases = [[os.path.join(examples, name)] + comparison.names(name, ending)[1:]
             for name in drawings for ending in ENDINGS]
    comparison.sew([["route"] + names for names in cases])
    comparison.judge(cases, "yes")
    for names in cases[::6] + [[examples] + cases[0][1:], [cases[0][0]] * 3, [cases[0][2]] + cases[0][1:]]:
        judge_as_printed(names)
    made = triples(comparison, count)
    comparison.judge([names for _, names, _ in made])
    spoiled = []
    for place, (rng, names, ending) in enumerate(made):
        contents = tuple(open(name, "rb").read() for name in names)
        spoiled.append(comparison.names(f"{place}-spoiled", ending))
        comparison.write(spoiled[-1], SPOILS[place // 15 % len(SPOILS)](rng, contents, ending))
    comparison.judge(spoiled)
    return comparison.reasons


def main(program, examples, count=TRIPLES):
    """Compares in a new folder, which stays only where a verdict differs."""
    def run_all(requests):
        """The status and the last line of each request."""
        for words in requests:
            done = subprocess.run([program] + words, capture_output=True, check=False)
            lines = (done.stderr if done.returncode else done.stdout).decode(errors="replace").splitlines()
            yield done.returncode, lines[-1] if lines else ""

    folder = tempfile.mkdtemp(prefix="checker")
    reasons = compare(run_all, folder, examples, int(count))
    for name in os.listdir(folder):
        os.remove(os.path.join(folder, name))
    os.rmdir(folder)
    print(f"checker: {sum(reasons.values())} verdicts agree, of {len(reasons)} kinds")


if __name__ == "__main__":
    main(*sys.argv[1:])
