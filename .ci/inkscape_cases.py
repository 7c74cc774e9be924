"""Tests the extension of Inkscape: what it saves against from_svg.py and the programs, its refusals, and its layers:
inkscape_cases.py FOLDER WINDOW [WORD..]. WINDOW is the command that gives a program a window, or nothing. Runs the tests whose
names have one of the words, or all."""
import glob
import os
import shutil
import subprocess
import sys
import xml.etree.ElementTree as ElementTree

HOME = os.path.dirname(os.path.dirname(os.path.abspath(__file__)))
FOLDER, WINDOW, *WORDS = sys.argv[1:]
EXTENSION = os.path.join(FOLDER, "profile", "extensions", "redwork")
sys.path[:0] = [os.path.join(HOME, "python"), os.path.join(HOME, "inkscape")]
import redwork_layers  # noqa: E402
import redwork_programs  # noqa: E402
import svg_by_inkex  # noqa: E402
from stitch.svg import by_svgelements, drawing  # noqa: E402

NAMES = ["bird", "name", "wreath", "quilt", "snail"]
SVG, INKSCAPE = "{http://www.w3.org/2000/svg}", "{http://www.inkscape.org/namespaces/inkscape}"
HEAD = '<svg xmlns="http://www.w3.org/2000/svg" width="100mm" height="100mm" viewBox="0 0 50 50" stroke="black" fill="none">'
TEXT = HEAD + '<text id="t" x="10" y="20">a</text></svg>'
SENTENCE = "text 't': convert it to a path (Path > Object to Path), or draw its letters as lines\n"
LINE = HEAD + '<path id="p" d="M1 1h9"/></svg>'
BOTH = LINE.replace("</svg>", TEXT[len(HEAD):])
MADE_NONE = "Stitch made no design of the drawing:\n"
ILLUSTRATORS = '''<?xml version="1.0" encoding="utf-8"?><!-- Generator: Adobe Illustrator 24.0.0, SVG Export Plug-In -->
<!DOCTYPE svg PUBLIC "-//W3C//DTD SVG 1.1//EN" "http://www.w3.org/Graphics/SVG/1.1/DTD/svg11.dtd" [
<!ENTITY ns_ai "http://ns.adobe.com/AdobeIllustrator/10.0/">]>
<svg xmlns:i="&ns_ai;" xmlns="http://www.w3.org/2000/svg" x="0px" y="0px" width="200px" height="200px" viewBox="0 0 200 200">
<style type="text/css">.st0{fill:none;stroke:#FF0000;}</style>
<switch><foreignObject requiredExtensions="&ns_ai;" width="1" height="1"></foreignObject>
<g i:extraneous="self"><path class="st0" d="M0,0H72"/></g></switch></svg>
'''
SECONDS = 300
# The T's short line ends 0.1 mm below the long one.
T = HEAD + '<path id="bar" d="M0 0h40"/><path id="stem" d="M20 .05v20"/></svg>'
failed = 0


def expect(what, wanted, found):
    """Reports a value that isn't the expected one."""
    global failed
    if wanted != found:
        failed += 1
        print(f"inkscape_cases: {what}\n  wanted {str(wanted)[:400]}\n  found  {str(found)[:400]}", file=sys.stderr)


def run(*words, **options):
    """The status of a program and what it writes, as text."""
    done = subprocess.run(words, cwd=FOLDER, capture_output=True, text=True, timeout=SECONDS, check=False, **options)
    return done.returncode, done.stdout, done.stderr


def stitch(*words):
    """What a program prints, which must succeed."""
    status, out, err = run(os.path.join(os.environ["STITCH_BIN"], words[0]), *words[1:])
    expect(words, (0, ""), (status, err))
    return out


def read(name):
    """The bytes of a file, or none of them."""
    path = os.path.join(FOLDER, name)
    if not os.path.exists(path):
        return b""
    with open(path, "rb") as file:
        return file.read()


def extension(command, document, *options, **environment):
    """The status, output and messages of the extension, run as Inkscape runs it."""
    path = os.path.join(FOLDER, "document.svg")
    with open(path, "w", encoding="utf-8") as out:
        out.write(document)
    return run(sys.executable, os.path.join(EXTENSION, "redwork.py"), f"--command={command}", *options, path,
               env={**os.environ, "DOCUMENT_PATH": path, **environment})


def same_points(name):
    """Both libraries give the same drawing."""
    with open(os.path.join(HOME, "examples", name), encoding="utf-8") as file:
        text = file.read()
    one, other = (drawing.drawing(ElementTree.fromstring(text.encode()), text, library).text
                  for library in (by_svgelements, svg_by_inkex))
    expect(f"{name} by inkex", one, other)


def layers(document):
    """The groups of a document by the name of their layer."""
    found = {}
    for group in ElementTree.fromstring(document).iter(SVG + "g"):
        found.setdefault(group.get(INKSCAPE + "label"), []).append(group)
    return found


def texts(group):
    """The lines of text in a group."""
    return ["".join(part.itertext()) for part in group.iter(SVG + "tspan")]


def test_drawings():
    """The extension's reader gives the drawings of from_svg.py."""
    for path in sorted(glob.glob(os.path.join(HOME, "examples", "*.svg"))):
        same_points(os.path.basename(path))


def test_saved():
    """Five documents saved by one command are byte by byte those of from_svg.py and the programs; bared, they pass the check."""
    for name in NAMES:
        shutil.copy(os.path.join(HOME, "examples", name + ".svg"), FOLDER)
    run("inkscape", "--export-type=pes", *(name + ".svg" for name in NAMES))
    run("inkscape", "--export-type=dst,exp,pec", "snail.svg")
    for name in NAMES:
        run(sys.executable, os.path.join(HOME, "examples", "from_svg.py"), name + ".svg", "drawn.rw")
        stitch("stitch_drawing", "snap", "2", "drawn.rw", "snapped.rw")
        for step, source in (("cross", "snapped.rw"), ("space", "cross.rw"), ("free", "space.rw"), ("near", "free.rw")):
            stitch("stitch_drawing", step, source, step + ".rw")
        for form in ("pes", "dst", "exp", "pec") if name == "snail" else ("pes",):
            stitch("stitch", "route", "near.rw", "routed." + form, "wanted.cert")
            stitch("stitch_design", "edit", "routed." + form, "wanted." + form, "tie")
            expect(f"{name}.{form}", read("wanted." + form), read(f"{name}.{form}"))
            for ending, wanted in (("rw", "near.rw"), ("cert", "wanted.cert")):
                expect(f"{name}.{form}.{ending}", read(wanted), read(f"{name}.{form}.{ending}"))
            saved = f"{name}.{form}"
            stitch("stitch_design", "edit", saved, "bare." + form, "bare")
            expect("check " + saved, "yes\n", stitch("stitch", "check", saved + ".rw", "bare." + form, saved + ".cert"))


def test_refusals():
    """What can't be saved or drawn is refused with its object, and what is left out or lost is reported."""
    for wanted, command, document, options, environment in (
            (SENTENCE, "save", TEXT, (), {}),
            (SENTENCE, "look", BOTH, (), {}),
            (SENTENCE, "route", TEXT, ("--skip=true",), {}),
            ("30010 tenths of a millimetre from 0 0: move it to the page, or scale it; a drawing has at most 30000\n", "save",
             HEAD + '<path d="M1500 0h.5"/></svg>', (), {}),
            ("The program stitch_drawing isn't there. Type make install in the folder of Stitch, or set STITCH_BIN to the folder "
             "that has it, and start Inkscape again.\n", "save", LINE, (), {"STITCH_BIN": "", "PATH": ""}),
            ("stitch_drawing: drawn.rw: block 1 line 2: would vanish (object q)\n", "save",
             LINE.replace("</svg>", '<path id="q" d="M5 .9v.2"/></svg>'), ("--snap=2",), {}),
            ("cannot write /none/document.pes.rw: No such file or directory: name another folder in the dialog\n", "save", LINE,
             ("--form=pes", "--folder=/none"), {})):
        status, out, err = extension(command, document, *options, **environment)
        reason = os.path.join(FOLDER, "document.lst.txt")
        kept = f"This is in {reason} too.\n" if command == "save" and not options[1:] else ""
        expect(wanted, (True, "", wanted + kept), (status != 0, out, err))
        expect("the kept reason", MADE_NONE + wanted if kept else "", read("document.lst.txt").decode())
        if kept:
            os.remove(reason)
    expect("what is left out", (0, "left out: " + SENTENCE), extension("save", BOTH, "--skip=true")[::2])
    expect("a document without a folder",
           (0, "No certificate was kept, as the document has no folder yet: save it, or name one in the dialog.\n"),
           extension("save", LINE, DOCUMENT_PATH="")[::2])
    for wanted, message in (("b", "x: x.rw: line 5: point repeated"), ("b", "x: x.rw: block 1 line 2: would vanish"),
                            ("", "x: x.rw: more than 1024 lines")):
        text = "redwork 2\ncolor 1\nline 0 0 1 1\n# b\nline 0 0 1 1\n"
        expect(message, wanted, redwork_programs.object_of(message, text, ["a", "b"]))


def test_reasons():
    """An Inkscape that is started to export writes the reason. The next design takes its file away, and no other file."""
    with open(os.path.join(FOLDER, "text.svg"), "w", encoding="utf-8") as out:
        out.write(TEXT)
    expect("the status of a refusal", 0, run("inkscape", "--export-type=pes", "text.svg")[0])
    for name in ("text.pes", "text.pes.txt"):
        expect(name, MADE_NONE + SENTENCE, read(name).decode())
    for before, after in ((MADE_NONE.encode() + b"old\n", b""), (b"my notes\n", b"my notes\n")):
        with open(os.path.join(FOLDER, "document.lst.txt"), "wb") as out:
            out.write(before)
        expect("a design after a refusal", 0, extension("save", LINE)[0])
        expect("the file of the reason", after, read("document.lst.txt"))
    extension("save", TEXT)
    expect("a file of the same name", b"my notes\n", read("document.lst.txt"))
    os.remove(os.path.join(FOLDER, "document.lst.txt"))


def test_illustrators():
    """A file as Illustrator writes it, whose entities Inkscape writes into the name of a namespace."""
    with open(os.path.join(FOLDER, "ai.svg"), "w", encoding="utf-8") as out:
        out.write(ILLUSTRATORS)
    expect("Illustrator's file", 0, run("inkscape", "--export-type=pes", "ai.svg")[0])
    run(sys.executable, os.path.join(HOME, "examples", "from_svg.py"), "ai.svg", "wanted.rw")
    lines = [[line for line in read(name).splitlines() if line[:4] == b"line"] for name in ("wanted.rw", "ai.pes.rw")]
    expect("Illustrator's lines", [[b"line 0 0 254 0"], 1], [lines[0], len(lines[1])])


def test_look():
    """The places, each with its objects. A point is at half its tenths of a millimetre, by the viewBox / 20."""
    status, shown, err = extension("look", T, "--snap=0")
    look = layers(shown).get("Redwork look", [])
    expect("look", (0, "", 1), (status, err, len(look)))
    expect("its places", [["loose end: stem"]], [texts(group) for group in look])
    expect("its mark", [("400", "1")], [(mark.get("cx"), mark.get("cy")) for group in look for mark in group.iter(SVG + "circle")])
    expect("its units", ["scale(0.05, 0.05)"], [group.get("transform") for group in look])
    expect("places after near", [["loose end"]], [texts(group) for group in layers(
        extension("look", T, "--snap=0", "--near=true")[1]).get("Redwork look", [])])
    status, again, err = extension("look", shown.replace('d="M20 .05v20"', 'd="M20 5v20"'), "--snap=0")
    expect("look again", (0, "No place was found.\n", [[]]),
           (status, err, [texts(group) for group in layers(again).get("Redwork look", [])]))


def test_route():
    """The points are the needles of the list, the layers aren't sewn, and another run replaces its own layer."""
    shown = extension("look", T, "--snap=0")[1]
    status, routed, err = extension("route", shown, "--snap=2")
    route = layers(routed).get("Redwork route", [])
    expect("route", (0, "", 1, 1), (status, err, len(route), len(layers(routed).get("Redwork look", []))))
    listed = extension("save", routed, "--form=lst")[1]
    expect("a list with layers", extension("save", T, "--form=lst")[1], listed)
    needles = [" ".join(line.split()[1:]).replace(" ", ",") for line in listed.splitlines() if line.startswith(("needle", "float"))]
    drawn = [line.get("points").split() for group in route for line in group.iter(SVG + "polyline")]
    expect("the points", [needles, needles], drawn)
    expect("its texts", "1", texts(route[0])[0] if route else "")
    expect("the report", ["pieces 1 penetrations " + str(len(needles))], [texts(group)[-1] for group in route])
    expect("route again", 1, len(layers(extension("route", routed)[1]).get("Redwork route", [])))
    expect("pieces", [(5, [0, 3 + 4j]), (5, [8j]), (6, [1])], redwork_layers.pieces_of(
        "stitch-list 1\nlabel []\nblock 5\nneedle 0 0\nfloat 3 4\ntrim\nneedle 0 8\nblock 6\nneedle 1 0\nend\n"))
    expect("arrows", [25, 75], [round(at.real) for at, _ in redwork_layers.arrows([0j, 20 + 0j, 20 + 0j, 90 + 0j, 120 + 0j])])


def test_in_inkscape():
    """Look and route in Inkscape itself, one after the other."""
    shutil.copy(os.path.join(HOME, "examples", "snail.svg"), FOLDER)
    run(*WINDOW.split(), "inkscape", "--batch-process", "--actions=stitch.redwork.look.noprefs;stitch.redwork.route.noprefs;"
        "export-filename:shown.svg;export-do", "snail.svg")
    shown = layers(read("shown.svg") or b"<svg/>")
    expect("layers in Inkscape", [1, 1], [len(shown.get(name, [])) for name in ("Redwork look", "Redwork route")])


for test in (test_drawings, test_saved, test_refusals, test_reasons, test_illustrators, test_look, test_route, test_in_inkscape):
    if not WORDS or any(word in test.__name__ for word in WORDS):
        test()
print(f"inkscape: {failed} failed")
sys.exit(failed > 0)
