#!/usr/bin/env python3
"""Compares the reference beside it with `stitch`: `python3 differential.py PROGRAM [CASES]`.

Each case is a command over generated files, right or spoiled, with a seed of its own. Before them come files at the limits
and beyond, and verdicts on spoiled routes. Status, both outputs and all files must be equal. Of the usage text only the
status is compared.
"""
import os
import random
import subprocess
import sys
import tempfile

import compare
import reference

CASES = 3000
# The spoiled routes that are judged, some for each way to spoil one.
VERDICTS = 270
ENDINGS = list(reference.LIMITS)


# ---- Designs.


# Parts of moves at which a format changes: the short coordinates of PEC, and the limits.
EDGES = [-64, -63, 62, 63, 121, -121, 122, 127, -127, 128, 242, 243, 2047, -2047, 2048]


def next_point(rng, points, reach):
    """A point near the last one, at an edge of a format from it, or one of those before."""
    x, y = points[-1]
    kind = rng.random()
    if kind < 0.25:
        return rng.choice(points)
    if kind < 0.5:
        return x + rng.choice(EDGES) * rng.choice([0, 1]), y + rng.choice(EDGES) * rng.choice([0, 0, 1])
    near = reach if rng.random() < 0.1 else rng.choice([3, 30, 100, 130])
    return x + rng.randint(-near, near) * rng.choice([0, 1, 1, 1]), y + rng.randint(-near, near)


def random_acts(rng, reach):
    """The lines of a stitch list, which need not be one."""
    lines, points, loose = [f"block {rng.randrange(256)}"], [(rng.randint(-reach, reach), rng.randint(-reach, reach))], True
    for _ in range(rng.choice([70, 253, 254, 255]) if rng.random() < 0.03 else 0):
        lines += ["needle 0 0", f"block {rng.randrange(256)}"]
    for _ in range(rng.choice([0, 1, 3, 8, 20, 40])):
        kind = rng.choices(["needle", "float", "trim", "block"], [12, 2, 2, 1])[0]
        if kind in ("needle", "float"):
            points.append(next_point(rng, points, reach))
            lines.append(f"{'needle' if loose else kind} {points[-1][0]} {points[-1][1]}")
            loose = False
        elif kind == "block" or not loose:
            lines.append(kind if kind == "trim" else f"block {rng.randrange(256)}")
            loose = True
    return lines


# Records of each format, with how often they come: those of other writers, jumps without a needle, and few that are refused.
RECORDS = {
    "dst": [(b"\0\0\x83", 4), (b"\0\0\xC3", 2), (b"\x01\0\xC3", 2), (b"\0\0\x43", 0.2), (b"\0\0\xF3", 0.1),
            (b"\x01\x80\x83", 4), (b"\x04\x20\x03", 6), (b"\0\0\0", 6), (b"\x82\x41\x83", 4)],
    "exp": [(b"\x80\x04\x05\x06", 6), (b"\x80\x80\x07\0", 2), (b"\x80\x01\0\0", 2), (b"\x80\x01\x09\xF0", 2),
            (b"\x80\x02\x01\x7F", 3), (b"\x80\x03\0\0", 0.1), (b"\x7F\x80", 8), (b"\x80", 0.2)],
    "pec": [(b"\x90\x05\x9F\xF0", 6), (b"\xA0\x05\xA0\x07", 3), (b"\xFE\xB0\x02", 2), (b"\x85\x01\x02", 3),
            (b"\x01\x02", 10), (b"\x7F\x40", 6), (b"\xFF", 0.1), (b"\xB0\x01\x02", 3)],
}
RECORDS["pes"] = RECORDS["pec"]
# A stop of each format. Some designs have more of them than another format can hold.
STOPS = {"dst": b"\0\0\xC3", "exp": b"\x80\x01\0\0", "pec": b"\xFE\xB0\x02", "pes": b"\xFE\xB0\x02"}


def random_records(rng, ending):
    """Records of a file as they may come."""
    records, weights = zip(*RECORDS[ending])
    body = b"".join(rng.choices(records, weights)[0] for _ in range(rng.choice([0, 2, 9, 30])))
    if rng.random() < 0.03:
        body += STOPS[ending] * rng.choice([253, 254, 255, 998, 999, 1000])
    return body + {"dst": b"\0\0\xF3", "exp": b""}.get(ending, b"\xFF")


def head_of(rng, ending):
    """A header with a label, and for a block some threads."""
    label = b"LA:" + rng.choice([b"Small", b"a b", b"", b"caf\xE9", b" x"]).ljust(16) + b"\r"
    if rng.random() < 0.1:
        label = label.replace(b"LA:", b"LB:")
    if ending == "dst":
        return label.ljust(512)
    if ending == "exp":
        return b""
    count = rng.choice([255, 0, 1, 3, 254])
    block = label.ljust(48) + bytes([count]) + bytes(rng.randrange(256) for _ in range(463)) + bytes(16)
    if ending == "pec":
        return b"#PEC0001" + block
    offset = rng.choice([22, 12, 40])
    return (b"#PES0001" + offset.to_bytes(4, "little")).ljust(offset, b"\0") + block


def list_file(rng):
    """The text of a stitch list, which need not be one."""
    acts = random_acts(rng, rng.choice([20, 200, 2000, 29000]))
    lines = ["stitch-list 1", f"label [{rng.choice(['', 'Rose', 'a b', '[x]'])}]"] + acts + ["end"]
    return "".join(line + "\n" for line in lines).encode()


def spoiled(rng, data):
    """The data with a byte changed, or cut off, or without a byte."""
    at = rng.randrange(len(data))
    return rng.choice([data[:at] + bytes([rng.randrange(256)]) + data[at + 1:], data[:at], data[:at] + data[at + 1:]])


def design_file(rng, ending):
    """A design as it is written here or as others write it, spoiled at times."""
    data = list_file(rng) if ending == "lst" else None
    if data is None and rng.random() < 0.5:
        data = reference.run(["convert", "a.lst", f"b.{ending}"], {"a.lst": list_file(rng)})[3].get(f"b.{ending}")
    if data is None:
        data = head_of(rng, ending) + random_records(rng, ending)
    return spoiled(rng, data) if data and rng.random() < 0.15 else data


# ---- Commands.


def number_near(rng, *numbers):
    """One of these numbers, or at times another word."""
    odd = ["x", "", "-1", "07", "99999999999999999999"]
    return rng.choice(odd) if rng.random() < 0.1 else str(rng.choice(numbers))


def edit_word(rng):
    """An edit, at times one out of range."""
    words = [(f"shift={rng.randint(-99, 99)},{rng.randint(-60000, 60000) // rng.choice([1, 900])}", 6), ("mirror=x", 3),
             (f"turn={rng.randrange(4)}", 5), ("mirror=y", 3), (f"thread={rng.randint(1, 4)},{rng.randrange(256)}", 5),
             (f"turn={number_near(rng, 1, 4)}", 1), (f"shift={number_near(rng, 60000, 60001)},{number_near(rng, 0)}", 1),
             (f"thread={number_near(rng, 1, 255, 256, 0)},{number_near(rng, 0, 255, 256)}", 1), ("mirror=z", 0.3), ("shift=1", 0.3)]
    return rng.choices([word for word, _ in words], [weight for _, weight in words])[0]


def sides_of(rng, name, files):
    """The width and the height of a design, in either order."""
    try:
        acts = reference.acts_of(reference.read_design(name, files).commands)
    except (reference.Refused, reference.Unreadable, KeyError):
        acts = []
    sides = [max(values) - min(values) for values in zip(*reference.needles_of(acts))] or [1, 1]
    return sides if rng.random() < 0.6 else sides[::-1]


def drawing_file(rng):
    """A small drawing, one word of it spoiled at times."""
    text = compare.make_drawing(rng, rng.randint(1, 3))
    return compare.spoil_word(rng, (text, b"", b""), "")[0] if rng.random() < 0.4 else text


def case(seed):
    """The words and the files of a case."""
    rng = random.Random(seed)
    source, target = rng.choice(ENDINGS), rng.choice(ENDINGS)
    name = f"a.{rng.choice([source, source.upper()])}" if rng.random() < 0.9 else rng.choice(["a", "a.svg", f"none.{source}"])
    files = {f"a.{source}": design_file(rng, source)}
    if name.lower() == f"a.{source}":
        files = {name: files[f"a.{source}"]}
    command = rng.choice(["show", "convert", "convert", "convert", "edit", "edit", "hoop", "trace", "migrate"])
    out = f"b.{target}" if rng.random() < 0.97 else name
    if command == "show":
        words = [name]
    elif command == "convert":
        words = [name, out] + rng.choice([[], [], ["--split"], ["--cut"], ["--split", "--cut"], ["--cut", "--split"], ["--cut"] * 2])
    elif command == "edit":
        words = [name, out] + [edit_word(rng) for _ in range(rng.choice([1, 1, 2, 3]))]
    elif command == "hoop":
        words = [name, *(number_near(rng, side - 1, side, side, side + 1, 60000, 60001, 0) for side in sides_of(rng, name, files))]
    elif command == "trace":
        words = [name, "b.rw"]
    else:
        files = {"a.rw": drawing_file(rng)}
        words = ["a.rw", rng.choice(["b.rw", "b.rw", "b.rw", "a.rw"])]
    if rng.random() < 0.02:
        words = words[:-1]
    return [command, *words], files


# ---- Cases at the limits, and verdicts.


def star(lines, step, scale):
    """The text of a drawing of that many lines from one point, to points of a grid."""
    ends = "".join(f"line 0 0 {scale * (x % 40 + 1)} {scale * (x // 40)}\n" for x in range(lines))
    return f"redwork 2\nstep {step}\ncolor 5\n{ends}".encode()


def sewn_star(links):
    """A stitch list that sews so many links from one point, each there and back."""
    sewn = "".join(f"needle {x} 9\nneedle 0 0\n" for x in range(1, links + 1))
    return f"stitch-list 1\nlabel []\nblock 5\nneedle 0 0\n{sewn}end\n".encode()


def long_line(points):
    """The text of a drawing of one line of that many points."""
    listed = " ".join(f"{at % 200} {at // 200}" for at in range(points))
    return f"redwork 2\ncolor 5\nline {listed}\n".encode()


def many_blocks(blocks):
    """The text of a drawing of that many blocks."""
    return b"redwork 2\n" + b"color 5\nline 0 0 1 1\n" * blocks


def cases_at_limits():
    """The words and the files of cases at the limits and one beyond."""
    longest = bytes(67108864)
    for ending in ENDINGS:
        yield ["show", f"a.{ending}"], {f"a.{ending}": longest + b"\0"}
    for text in (star(1024, 25, 1), star(1025, 25, 1), star(1000, 1, 10), long_line(65536), long_line(65537), many_blocks(255), many_blocks(256)):
        yield ["migrate", "a.rw", "b.rw"], {"a.rw": text}
    yield ["migrate", "a.rw", "b.rw"], {"a.rw": longest + b"\0"}
    for links in (1024, 1025):
        yield ["trace", "a.lst", "b.rw"], {"a.lst": sewn_star(links)}


def spoiled_route(program, seed):
    """The words and the files of a verdict on a route that is spoiled in one place."""
    rng = random.Random(seed)
    ending = compare.ENDINGS[seed % len(compare.ENDINGS)]
    names = ["a.rw", f"a.{ending}", "a.cert"]
    drawing = compare.make_drawing(rng, rng.randint(1, 3))
    left = run_program(program, ["route", *names], {names[0]: drawing})[3]
    spoil = compare.SPOILS[seed % len(compare.SPOILS)]
    return ["check", *names], dict(zip(names, spoil(rng, (drawing, left[names[1]], left[names[2]]), ending)))


def all_cases(program, cases):
    """The name, the words and the files of each case."""
    for number, (words, files) in enumerate(cases_at_limits()):
        yield f"{number} at the limits", words, files
    for seed in range(VERDICTS):
        yield f"{seed} of verdicts", *spoiled_route(program, seed)
    for seed in range(cases):
        yield str(seed), *case(seed)


# ---- The comparison.


def run_program(program, words, files):
    """The same of the built program, in a folder of its own."""
    with tempfile.TemporaryDirectory() as folder:
        for name, data in files.items():
            with open(os.path.join(folder, name), "wb") as file:
                file.write(data)
        done = subprocess.run([program, *words], cwd=folder, capture_output=True, check=False, timeout=60)
        left = {}
        for name in os.listdir(folder):
            with open(os.path.join(folder, name), "rb") as file:
                data = file.read()
            if files.get(name) != data:
                left[name] = data
    return done.returncode, done.stdout.decode(), None if done.returncode == 2 else done.stderr.decode(), left


def main(program, cases=CASES):
    """Compares all cases, and prints each that differs."""
    program, differ, kinds = os.path.abspath(program), 0, {}
    for name, words, files in all_cases(program, int(cases)):
        wanted, found = reference.run(words, files), run_program(program, words, files)
        kinds[words[0], wanted[0]] = kinds.get((words[0], wanted[0]), 0) + 1
        if wanted != found:
            differ += 1
            if differ <= 20:
                print(f"differential: case {name}: {words}\n  reference {str(wanted)[:500]}\n  program   {str(found)[:500]}",
                      file=sys.stderr)
    print(f"differential: {sum(kinds.values())} cases, {differ} differ: " + ", ".join(
        f"{command} {status}: {count}" for (command, status), count in sorted(kinds.items())))
    return differ > 0


if __name__ == "__main__":
    sys.exit(main(*sys.argv[1:]))
