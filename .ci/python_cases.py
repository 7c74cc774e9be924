"""Tests the package for Python, and convert_folder.py: python_cases.py HOME [WORD..]. Each run of the library is compared with one of
the built program. Runs the tests whose names have one of the words, or all."""
import os
import re
import signal
import subprocess
import sys
import tempfile

import stitch
from stitch import library, reports

HOME, WORDS = sys.argv[1], sys.argv[2:]
DRAWING = stitch.Drawing(b"redwork 3\nstep 10\ncolor 5\nline 0 0 20 0\n")
LIST = stitch.Design(b"stitch-list 1\nlabel []\nblock 5\nneedle 0 0\nneedle 30 0\nneedle 60 0\nneedle 30 0\nneedle 0 0\ntrim\nend\n", "lst")
# A stitch that is too long for DST, and a float.
LONG = stitch.Design(b"stitch-list 1\nlabel [a b]\nblock 22\nneedle 0 0\nneedle 200 0\nfloat 200 40\nneedle 200 80\ntrim\nend\n", "lst")
# Two blocks, of which the second has a diagonal stitch.
TWO = stitch.Design(b"stitch-list 1\nlabel [two]\nblock 5\nneedle -10 0\nneedle 10 0\ntrim\nblock 22\nneedle 0 0\nneedle 30 40\nneedle 0 0\n"
                    b"end\n", "lst")
# A line that is listed twice, and one that crosses it.
TWICE = stitch.Drawing(b"redwork 2\nstep 10\ncolor 5\nline 0 0 20 0\nline 20 0 0 0\nline 10 -10 10 10\n")
# Lines that end 0.3 mm apart.
APART = stitch.Drawing(b"redwork 2\ncolor 5\nline 0 0 30 0\nline 30 3 60 3\n")
WAVE = stitch.Drawing(b"redwork 2\nstep 30\ncolor 5\nline 0 0 8 1 16 0 24 1 32 0 40 1 48 0 56 1 64 0\n")
failed, commands = 0, set()


def same(what, found, wanted):
    """Compares a value with the one that is wanted."""
    global failed
    if found != wanted:
        failed += 1
        print(f"python: {what}\n  wanted {str(wanted)[:500]}\n  found  {str(found)[:500]}", file=sys.stderr)


def raised(call, *given, **more):
    """The kind and text of the exception that a call raises, or None."""
    try:
        call(*given, **more)
    except Exception as why:
        return type(why).__name__, str(why)
    return None, None


def by_program(program, words, files):
    """The status, the output, the report and the written files of a built program."""
    path = os.path.join(os.environ.get("STITCH_BIN") or os.path.join(HOME, "crates", program, "out"), program)
    with tempfile.TemporaryDirectory() as folder:
        for name, content in files.items():
            open(os.path.join(folder, name), "wb").write(content)
        ran = subprocess.run([path, *words], cwd=folder, capture_output=True, text=True)
        left = {name: open(os.path.join(folder, name), "rb").read() for name in os.listdir(folder)}
    changed = {name: content for name, content in left.items() if files.get(name) != content}
    return stitch.Reply(ran.returncode, ran.stdout, ran.stderr, changed)


def compared(program, words, files):
    """A run of the library, which equals one of the built program. Each function of the package calls this."""
    reply = stitch.run(program, words, files)
    same(f"{program} {' '.join(words)}", reply, by_program(program, words, files))
    commands.add(f"{program} {words[0] if words and '.' not in words[0] else ''}".strip())
    return reply


def examples(ending):
    """The contents of the examples with an ending, by their names."""
    folder = os.path.join(HOME, "examples")
    return {name: open(os.path.join(folder, name), "rb").read() for name in sorted(os.listdir(folder)) if name.endswith(ending)}


def listed(*acts, label="", thread=5):
    """The stitch list of these acts."""
    return "\n".join(["stitch-list 1", f"label [{label}]", f"block {thread}", *acts, "trim", "end", ""]).encode()


def test_designs():
    same("figures", (TWO.label, TWO.stitches, TWO.trims, TWO.stops, TWO.size_mm, TWO.is_ended), ("two", 5, 1, 1, (4.0, 4.0), True))
    same("a trim, and no stop", (LIST.trims, LIST.stops), (1, 0))
    same("no end", stitch.Design(LIST.convert("dst").data[:-3], "dst").is_ended, False)
    same("blocks", TWO.blocks, (stitch.Block(stitch.Thread(5, "Red", "#ed171f"), 2, 2.0, 2.0, 2.0),
                                stitch.Block(stitch.Thread(22, "Royal Purple", "#770176"), 3, 10.0, 5.0, 5.0)))
    same("threads", [thread.name for thread in TWO.threads], ["Red", "Royal Purple"])
    same("palette", (len(stitch.palette()), stitch.palette()[4]), (64, TWO.threads[0]))
    same("places", [(place.kind, place.command, place.numbers) for place in LONG.places(long=19.9, tie=0, float=0, short=0)],
         [("stitch", 2, (200,))])
    same("floats", [(place.kind, place.command, place.numbers) for place in LONG.places(long=0, tie=0, float=3.9, short=0)],
         [("float", 4, (40,))])
    same("passes", [LONG.passes(long=long, tie=0, float=0, short=0) for long in (19.9, 20.0)], [False, True])
    same("compare", [LIST.compare(LIST.convert("dst")), LIST.compare(LONG).text], [None, "needle 30 0, needle 200 0"])
    other = stitch.Design(LIST.data.replace(b"block 5", b"block 7"), "lst")
    same("threads of two", [LIST.compare(other), LIST.compare(other, threads=True).text], [None, "thread 5, 7"])
    same("hoop", [LIST.hoop(*sides) for sides in ((6, 1), (1, 6), (5, 0.1))],
         [stitch.Fit("upright"), stitch.Fit("turned"), stitch.Fit("", (1.0, 0.0))])
    same("a hoop", [bool(LIST.hoop(*sides)) for sides in ((6, 1), (5, 1))], [True, False])
    same("cut", LONG.convert("lst", cut=True).data, LONG.data.replace(b"float", b"trim\nneedle"))
    same("split", LONG.convert("dst", split=True).convert("lst").data,
         LONG.data.replace(b"block 22", b"block 1").replace(b"needle 200 0", b"needle 100 0\nneedle 200 0"))
    same("converted", LONG.convert("lst", cut=True).report, {"needles": (4,), "trims": (2,), "stops": (0,)})
    for edits, points in (({"shift": (0, 0.5), "turn": 1}, "-5 0 -5 30 -5 60"), ({"turn": 1, "shift": (0, 0.5)}, "0 5 0 35 0 65"),
                          ({"scale": 50, "mirror": "x"}, "0 0 -15 0 -30 0"), ({"centre": True, "merge": 0.1}, "-30 0 0 0 30 0")):
        x, y, u, v, r, s = points.split()
        same(edits, LIST.edit(**edits).data, listed(*(f"needle {point}" for point in (f"{x} {y}", f"{u} {v}", f"{r} {s}", f"{u} {v}", f"{x} {y}"))))
    same("words", LIST.edit(thread=(1, 9), name="A B", drop_empty=True, bare=False).data,
         LIST.data.replace(b"[]", b"[A B]").replace(b"block 5", b"block 9"))
    same("cut float", LONG.edit(cut=3.9).data, LONG.data.replace(b"float", b"trim\nneedle"))
    same("tied", (LIST.edit(tie=True).stitches > LIST.stitches, LIST.edit(tie=True).edit(bare=True).data), (True, LIST.data))
    same("another format", (LIST.edit("dst", tie=True).format, LIST.edit("pes", thumbnails=True).stitches), ("dst", 5))
    same("traced", stitch.Drawing.trace(LIST).data.splitlines()[-1], b"line 0 0 30 0 60 0")
    for given, words in (({}, []), ({"hoop": (20, 8)}, ["200", "80"]), ({"plain": True}, ["plain"]), ({"plain": "f4f1ea"}, ["plain=f4f1ea"]),
                         ({"hoop": (20, 8), "size": (210, 297)}, ["200", "80", "size=210x297"])):
        wanted = by_program("stitch_picture", ["a.lst", "b.svg", *words], {"a.lst": LONG.data})
        same(f"picture {words}", {"b.svg": LONG.picture(**given).encode()}, wanted.files)


def test_drawings():
    route = DRAWING.route("pes")
    stitch.check(DRAWING, route.design, route.certificate)
    rose = stitch.Drawing(examples("rose.rw")["rose.rw"])
    same("route", (rose.route("pes").pieces[1], rose.route("dst").penetrations), (stitch.RoutedPiece(2, 2, 9, 44, 4, 49), 131))
    same("pieces", rose.pieces[1], stitch.Piece(2, 2, 9, 5, 2, 44, 2.5, 3.5, 0, 127.7, 50.2))
    same("no", raised(stitch.check, DRAWING, LIST, route.certificate), ("Refused", "no: act 2 differs"))
    square = stitch.Drawing(b"redwork 1\nstep 10\ncolor 5\nline 0 0 10 0 10 10 0 10 0 0\n")
    same("double", (square.double("exp").pieces, square.route("exp").penetrations), ((stitch.RoutedPiece(1, 1, 1, 4, 4, 9),), 5))
    same("sample", [stitch.Drawing.sample(number).report["sample"] for number in (3, 15)], [(3,), (15,)])
    same("migrate", stitch.Drawing(DRAWING.data.replace(b"redwork 3", b"redwork 1")).migrate().data,
         DRAWING.data.replace(b"redwork 3", b"redwork 2"))
    same("drawing", (APART.size_mm, APART.thread_mm, APART.travel_mm), ((6.0, 0.3), 6.0, 3.0))
    same("places", [[(place.kind, place.where, place.point_mm, place.numbers) for place in APART.places(gap)] for gap in (0.2, 0.3)],
         [[], [("loose end", {"block": (1,), "line": (1,), "at": (30, 0)}, (3.0, 0.0), (3, 2))]])
    same("crossing", next(place.where for place in TWICE.places() if place.kind == "crossing"), {"block": (1,), "line": (1, 3), "at": (10, 0)})
    same("snap", [APART.snap(gap).data.splitlines()[-2:] for gap in (0.2, 0.3)],
         [[b"line 0 0 30 0", b"line 30 3 60 3"], [b"line 0 0 30 3", b"line 30 3 60 3"]])
    same("snapped", [TWICE.snap(0.2, keep=keep).data.count(b"line") for keep in (False, True)], [2, 3])
    same("cross", [TWICE.cross(keep=keep).data.count(b"line") for keep in (False, True)], [2, 3])
    same("space", WAVE.space().data.splitlines()[-1], b"line 0 0 24 1 48 0 64 0")
    same("spaced", WAVE.space(length=2, leeway=0.2).data.splitlines()[-1], b"line 0 0 16 0 32 0 48 0 64 0")
    same("report", WAVE.space().report["points"], (9, 4))
    same("free", sorted(line.split(b" ", 1)[1] for line in DRAWING.free().data.splitlines()[-2:]), [b"0 0", b"20 0"])
    same("near", DRAWING.near().data, DRAWING.data.replace(b"redwork 3", b"redwork 2"))
    same("edit", DRAWING.edit(shift=(0, 0.5), step=1.5, start=(2, 0.5)).data, b"redwork 3\nstep 15\ncolor 5\nline 0 5 20 5\nstart 20 5\n")
    for given, words in (({}, []), ({"size": (50, 40)}, ["size=50x40"]), ({"certificate": route.certificate}, ["a.cert"])):
        wanted = by_program("stitch_picture", ["a.rw", *words[:"certificate" in given], "b.svg", *words["certificate" in given:]],
                            {"a.rw": DRAWING.data, "a.cert": route.certificate})
        same(f"picture {words}", {"b.svg": DRAWING.picture(**given).encode()}, wanted.files)
    # snapped, the two lines of APART are one, which is then spaced; version 1 is migrated first
    first = stitch.Drawing(b"redwork 1\ncolor 5\nline 0 0 30 0\nline 10 -10 10 0 10 10\nline 0 0 10 0\n")
    same("prepare", [len(made.pieces) for made in (APART.prepare(), APART.prepare(gap=0.3), first.prepare())], [2, 1, 1])
    same("steps", [b"start" in APART.prepare(gap=0.3, steps=steps).data for steps in ([], ["free"])], [False, True])


def test_examples():
    """Each function on each example; the runs are compared with those of the programs."""
    for drawing in map(stitch.Drawing, examples(".rw").values()):
        _ = drawing.pieces, drawing.places(0.5), drawing.picture(), drawing.prepare()
        for form in stitch.FORMATS:
            route = drawing.route(form)
            stitch.check(drawing, route.design, route.certificate)
            _ = route.design.blocks, route.design.passes(), route.design.hoop(100, 100), route.design.edit(tie=True, turn=1)
            same("sums", (route.penetrations, len(route.pieces)), (route.design.stitches, route.design.trims))


def test_exports():
    for program in stitch.PROGRAMS:
        reply = stitch.run(program, [], {})
        same(f"the program that {program}_run runs", (reply.status, reply.err.startswith(f"usage: {program} ")), (2, True))
    with open(os.path.join(HOME, "Makefile"), encoding="utf-8") as file:
        same("version", stitch.version(), re.search(r"(?m)^VERSION = (.*)$", file.read())[1])


def test_refusals():
    bad = stitch.Drawing(b"redwork 3\nstep 10\nline 0 0\n")
    for call, where, text in ((lambda: bad.route("dst"), {"line": (3,)}, "no block"),
                              (lambda: LONG.convert("dst"), {"command": (2,)}, "stitch longer than 121"),
                              (lambda: stitch.Design(b"#PES", "pes").size_mm, {"byte": (4,)}, "file too short"),
                              (lambda: LIST.edit(turn=1, thread=(3, 7)), {"edit": (2,)}, "no block 3, there are 1"),
                              (lambda: LIST.edit(scale=1000, shift=(2990, 0)), {"edit": (2,), "command": (2,)}, "command 2 moved out of range")):
        try:
            same(where, call(), "Refused")
        except stitch.Refused as why:
            same(str(why), (why.place.where, why.text, why.command), (where, text, where.get("command", (None,))[0]))
    same("a line", raised(LONG.convert, "dst"), ("Refused", "made.dst: command 2: stitch longer than 121"))
    same("no design", [raised(call)[0] for call in (lambda: LIST.compare(stitch.Design(b"", "lst")), stitch.Design(b"", "lst").passes,
                                                    lambda: stitch.Design(b"", "lst").hoop(9, 9))], ["Refused"] * 3)
    for what, call in (("format", lambda: LIST.convert("jef")), ("a format", lambda: stitch.Design(b"", "PES")),
                       ("data", lambda: stitch.Design("a", "pes")), ("a drawing", lambda: stitch.Drawing("a")),
                       ("edit", lambda: LIST.edit(tye=True)), ("no edit", LIST.edit), ("tenth", lambda: LIST.edit(shift=(0, 0.05))),
                       ("limit", lambda: LIST.places(long=1000)), ("hoop", lambda: LIST.hoop(0, 10)), ("side", lambda: LIST.hoop("6", 1)),
                       ("nan", lambda: LIST.hoop(float("nan"), 1)), ("infinity", lambda: LIST.hoop(float("inf"), 1)),
                       ("sample", lambda: stitch.Drawing.sample(0)), ("picture", lambda: LIST.picture(plain="red")),
                       ("name", lambda: stitch.open("mine.jef")), ("program", lambda: stitch.run("sew", [], {})),
                       ("words", lambda: stitch.run("stitch", "show", {})), ("file", lambda: stitch.run("stitch", [], {"a.lst": "text"}))):
        same(what, raised(call)[0], "ValueError")
    same("what isn't understood", raised(LIST.edit, tye=True), ("ValueError", "tye: not an edit"))
    same("missing", raised(stitch.open, "none.pes")[0], "FileNotFoundError")
    same("no task", library.unpacked(library.called("stitch", b"\1\0\0")), stitch.Reply(100, "", "task: cut off\n", {}))
    whole = library.called("stitch", library.packed(["sample", "1", "a.rw"], {}))
    same("cut off", {raised(library.unpacked, whole[:length])[0] for length in range(len(whole))}, {"ValueError"})


def test_reports():
    same("a label", reports.parsed("label [a: b c]\n")[0], [{"label": ("a: b c",)}])
    same("two words", reports.parsed("fits turned\nyes\n")[0], [{"fits": ("turned",)}, {"yes": ()}])
    same("a note", reports.parsed("more than 65536 places: the first are named\n"), ([], ()))
    same("a kind that is new", [(place.kind, place.where, place.numbers) for place in reports.parsed("row 3 at -4 5: 7 knots of 2, 9 by 1\n")[1]],
         [("knots", {"row": (3,), "at": (-4, 5)}, (7, 2, 9, 1))])
    same("no number", reports.parsed("block 1 thread not in the file needles 5\n")[0][0]["needles"], (5,))


def test_room():
    """A reply that is longer than the room is made again."""
    long, rooms = stitch.run("stitch", ["sample", "75", "a.rw"], {}), (library.ROOM, library.ROOM_MOST)
    library.ROOM = library.ROOM_MOST = 100
    same("a longer reply", stitch.run("stitch", ["sample", "75", "a.rw"], {}), long)
    library.ROOM, library.ROOM_MOST = rooms


def test_files():
    with tempfile.TemporaryDirectory() as folder:
        path = os.path.join(folder, "a.dst")
        LIST.save(path)
        same("saved", stitch.open(path).convert("lst").data, LIST.data.replace(b"block 5", b"block 1"))
        same("a file that is there", (raised(TWO.save, path)[0], os.listdir(folder)), ("FileExistsError", ["a.dst"]))
        TWO.save(path, overwrite=True)
        same("overwritten", (stitch.open(path).stitches, os.listdir(folder)), (5, ["a.dst"]))
        same("refused", (raised(LONG.save, path, overwrite=True)[0], stitch.open(path).stops, os.listdir(folder)), ("Refused", 1, ["a.dst"]))
        DRAWING.save(os.path.join(folder, "a.rw"))
        same("a drawing", stitch.Drawing.open(os.path.join(folder, "a.rw")), DRAWING)
        os.mkdir(os.path.join(folder, "a.exp"))
        same("a folder in the way", (raised(LIST.save, os.path.join(folder, "a.exp"), overwrite=True)[0], sorted(os.listdir(folder))),
             ("IsADirectoryError", ["a.dst", "a.exp", "a.rw"]))
        same("no folder", raised(LIST.save, os.path.join(folder, "none", "a.lst"))[0], "FileNotFoundError")


def test_way():
    """The way from an SVG file to the tied design."""
    before = os.getcwd()
    with tempfile.TemporaryDirectory() as folder:
        os.chdir(folder)
        open("mine.svg", "wb").write(examples("bird.svg")["bird.svg"])
        drawing = stitch.Drawing.from_svg("mine.svg").prepare()
        route = drawing.route("pes")
        stitch.check(drawing, route.design, route.certificate)
        route.design.save("mine.pes")
        design = stitch.open("mine.pes")
        tied = design.edit(tie=True, turn=1)
        tied.save("mine.dst", overwrite=False)
        same("all the way", (design.size_mm, tied.size_mm, design.threads[0].name, route.pieces[0].block, design.places(long=0.1, tie=0)[0].kind),
             ((78.0, 54.6), (54.6, 78.0), "Blue", 1, "stitch"))
        same("its files", sorted(os.listdir(".")), ["mine.dst", "mine.pes", "mine.svg"])
        for given, words in (({"step": 3.0, "within": 0.2, "apart": 0.9}, ["--step=30", "--within=0.2", "--apart=0.9"]),
                             ({"width": 38, "centre": True}, ["--width=38mm", "--centre"])):
            subprocess.run([sys.executable, os.path.join(HOME, "examples", "from_svg.py"), "mine.svg", "by_hand.rw", *words],
                           stderr=subprocess.DEVNULL, check=True)
            same(words, stitch.Drawing.from_svg("mine.svg", **given), stitch.Drawing.open("by_hand.rw"))
        same("ranges", [raised(stitch.Drawing.from_svg, "mine.svg", **given)[0] for given in ({"step": 0}, {"apart": 11}, {"width": -1})], ["ValueError"] * 3)
        open("bad.svg", "w").write("<svg")
        same("bad files", [raised(stitch.Drawing.from_svg, name)[0] for name in ("bad.svg", "none.svg")], ["Refused", "FileNotFoundError"])
        os.chdir(before)


def test_commands():
    """Each command of the manual pages was called by a function. What `stitch edit` does `stitch_design edit` does too."""
    wanted = {"stitch_picture", "stitch_design --version"}
    for program in stitch.PROGRAMS:
        with open(os.path.join(HOME, "man", f"{program}.1"), encoding="utf-8") as file:
            wanted |= set(re.findall(rf"(?m)^{program} [a-z]+", file.read().split(".nf")[1].split(".fi")[0]))
    same("commands", commands, wanted - {"stitch edit"})


def convert_folder(*words):
    """The status of convert_folder.py, and the lines that it prints."""
    ran = subprocess.run([sys.executable, os.path.join(HOME, "python", "convert_folder.py"), *words], capture_output=True, text=True)
    return ran.returncode, ran.stdout.splitlines() or ran.stderr.splitlines()[-1:]


def test_folder():
    with tempfile.TemporaryDirectory() as folder:
        source, target = os.path.join(folder, "in"), os.path.join(folder, "out")
        os.mkdir(source)
        for name, content in (("a.lst", LIST.data), ("b.lst", b"no list\n"), ("c.txt", b"")):
            open(os.path.join(source, name), "wb").write(content)
        status, lines = convert_folder(source, "dst", target)
        same("folder", (status, lines[0], lines[-1], sorted(os.listdir(target))),
             (1, "a.lst: a.dst", "2 files, 1 converted, 1 refused, 0 skipped", ["a.dst"]))
        same("folder's file", open(os.path.join(target, "a.dst"), "rb").read(), LIST.convert("dst").data)
        # a customer's file stays, unless it is to be overwritten
        os.remove(os.path.join(source, "b.lst"))
        for words, said, kept in (((), "a.dst is there: skipped", True), (("--overwrite",), "a.dst", False)):
            open(os.path.join(target, "a.dst"), "wb").write(b"a customer's")
            status, lines = convert_folder(*words, source, "dst", target)
            same("folder again", (status, lines[0]), (int(kept), "a.lst: " + said))
            same("a customer's file", open(os.path.join(target, "a.dst"), "rb").read() == b"a customer's", kept)
        # what would write over a source, or one result over another, writes nothing
        open(os.path.join(source, "A.EXP"), "wb").write(LIST.convert("exp").data)
        for out, said in ((source + "/.", f"{source}/. is the folder itself: name another for the converted files"),
                          (os.path.join(folder, "new"), "A.EXP and a.lst would both become a.dst: move one of them")):
            status, lines = convert_folder("--overwrite", source, "dst", out)
            same("no folder", (status, lines), (2, [f"convert_folder.py: error: {said}"]))
            same("no file", (sorted(os.listdir(source)), os.path.exists(os.path.join(folder, "new"))),
                 (["A.EXP", "a.lst", "c.txt"], False))


def test_stop():
    """A run over many files that is stopped leaves whole files, and says how many are left."""
    for kind in (signal.SIGINT, signal.SIGTERM):
        with tempfile.TemporaryDirectory() as folder:
            source, target = os.path.join(folder, "in"), os.path.join(folder, "out")
            os.mkdir(source)
            for number in range(2000):
                open(os.path.join(source, f"{number}.lst"), "wb").write(LIST.data)
            ran = subprocess.Popen([sys.executable, os.path.join(HOME, "python", "convert_folder.py"), source, "dst", target],
                                   stdout=subprocess.PIPE, stderr=subprocess.DEVNULL, text=True)
            ran.stdout.readline()
            ran.send_signal(kind)
            sums = ran.communicate(timeout=60)[0].splitlines()[-1]
            left = {open(os.path.join(target, name), "rb").read() for name in os.listdir(target)}
            done = len(os.listdir(target))
            same("stopped", (ran.returncode, sums, left), (130, f"2000 files, {done} converted, 0 refused, 0 skipped, {2000 - done} left",
                                                           {LIST.convert("dst").data}))


library.run = compared
for test in (test_designs, test_drawings, test_examples, test_exports, test_refusals, test_reports, test_room, test_files, test_way,
             test_folder, test_stop, test_commands):
    if not WORDS or any(word in test.__name__ for word in WORDS):
        test()
print(f"python: {failed} failed" if failed else "python: all as wanted")
sys.exit(bool(failed))
