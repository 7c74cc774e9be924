"""Tests redwork: what it writes against from_svg.py and the programs, its words, its refusals, and that no file is lost. The
programs are those in the folder STITCH_BIN, or those that ./build builds.
"""
import os
import shutil
import subprocess
import sys
import tempfile

HOME = os.path.dirname(os.path.dirname(os.path.abspath(__file__)))
BIN = os.environ.get("STITCH_BIN") or HOME
failed = 0


def expect(what, wanted, found):
    """Reports a value that isn't the expected one."""
    global failed
    if wanted != found:
        failed += 1
        print(f"redwork: {what}\n  wanted {str(wanted)[:400]}\n  found  {str(found)[:400]}", file=sys.stderr)


def run(*words):
    """The status of a program and what it writes, as text."""
    done = subprocess.run(words, capture_output=True, text=True, stdin=subprocess.DEVNULL, check=False)
    return done.returncode, done.stdout, done.stderr


def redwork(*words):
    """The status of redwork, the lines that it prints, and those that it reports."""
    status, out, err = run(os.path.join(HOME, "redwork"), *words)
    return status, out.splitlines(), err.splitlines()


def read(name):
    """The bytes of a file, or None."""
    if not os.path.exists(name):
        return None
    with open(name, "rb") as file:
        return file.read()


def by_hand(name, form):
    """The tied design, the drawing and the proof of a picture, by the steps that redwork takes."""
    run(sys.executable, os.path.join(HOME, "examples", "from_svg.py"), name + ".svg", "0.rw", "--centre")
    for number, words in enumerate((("snap", "2"), ("cross",), ("space",), ("free",), ("near",)), 1):
        run(os.path.join(BIN, "stitch_drawing"), *words, f"{number - 1}.rw", f"{number}.rw")
    run(os.path.join(BIN, "stitch"), "route", "5.rw", f"a.{form}", "a.cert")
    run(os.path.join(BIN, "stitch_design"), "edit", f"a.{form}", f"b.{form}", "tie")
    return read(f"b.{form}"), read("5.rw"), read("a.cert")


def test_writing():
    for name in ("bird", "house"):
        shutil.copy(os.path.join(HOME, "examples", name + ".svg"), ".")
        picture, wanted = read(name + ".svg"), by_hand(name, "pes")
        status, lines, report = redwork(name + ".svg")
        expect(name, (0, [], f"proof yes  wrote {name}.rw {name}.pes {name}.cert {name}.dst {name}.design.svg"),
               (status, report, lines[-1]))
        expect(f"{name}'s files", wanted, (read(name + ".pes"), read(name + ".rw"), read(name + ".cert")))
        expect(f"{name}.dst", by_hand(name, "dst")[0], read(name + ".dst"))
        expect(f"{name}.svg stays", picture, read(name + ".svg"))
    # the bird is 78.0 x 54.7 mm as drawn, so it doesn't fit 60 x 100 upright; 30 mm wide it is 21.0 high
    expect("the bird's size", "78.0 x 54.7 mm  centred", redwork("bird.svg")[1][0])
    expect("a hoop", "78.0 x 54.7 mm  fits 60 x 100 turned  centred", redwork("bird.svg", "hoop=60x100")[1][0])
    expect("a hoop", "78.0 x 54.7 mm  fits 100 x 60 upright  centred", redwork("bird.svg", "hoop=100x60")[1][0])
    expect("a width", "30.0 x 21.0 mm", redwork("bird.svg", "width=30", "centre=no")[1][0])


def test_lost_files():
    shutil.copy(os.path.join(HOME, "examples", "bird.svg"), "mine.svg")
    for ending in (".pes", ".rw", ".design.svg"):
        with open("mine" + ending, "w") as out:
            out.write("a customer's")
        status, lines, report = redwork("mine.svg")
        expect("a file that is there", (1, [], [f"redwork: mine.svg: mine{ending}: not written by redwork, or changed since: "
                                              "move it, or give --overwrite"]), (status, lines, report))
        expect("nothing is written", (b"a customer's", None), (read("mine" + ending), read("mine.cert")))
        os.remove("mine" + ending)
    expect("a first run", 0, redwork("mine.svg", "to=exp")[0])
    expect("one that writes over its own files", 0, redwork("mine.svg", "to=exp", "step=30")[0])
    with open("mine.rw", "ab") as out:
        out.write(b"# mine\n")
    changed = read("mine.rw")
    expect("a file that was changed", (1, changed), (redwork("mine.svg", "to=exp")[0], read("mine.rw")))
    expect("--overwrite", (0, True), (redwork("mine.svg", "to=exp", "--overwrite")[0], read("mine.rw") != changed))


def test_refusals():
    head = '<svg xmlns="http://www.w3.org/2000/svg" width="100mm" height="100mm" viewBox="0 0 100 100" stroke="black" fill="none">'
    with open("text.svg", "w") as out:
        out.write(head + '<text id="t">a</text><path d="M1 1h9"/></svg>')
    for wanted, words in (
            (["redwork: text.svg: text 't': convert it to a path (Path > Object to Path), or draw its letters as lines",
              "redwork: skip leaves these out"], ["text.svg"]),
            (["redwork: none.svg: cannot read it: No such file or directory"], ["none.svg"]),
            (["redwork: bird.svg: 78.0 x 54.7 mm is too large for 50 x 40: width=50.0 fits"], ["bird.svg", "hoop=50x40"])):
        status, lines, report = redwork(*words)
        expect(words, (1, [], wanted), (status, lines, report))
    expect("nothing is written", [], [name for name in os.listdir(".") if name.startswith("text.") and name != "text.svg"])
    expect("skip", (0, "left out: text 't': convert it to a path (Path > Object to Path), or draw its letters as lines"),
           (lambda status, lines, _: (status, lines[2]))(*redwork("text.svg", "skip")))
    for word, why in (("hoop=50", "it isn't two whole numbers of mm, as 100x100"), ("to=jef", "the formats are dst, exp, pec, pes, lst"),
                      ("step=0", "it isn't a whole number from 1 to 2047"), ("step=2.5", "it isn't a whole number from 1 to 2047"),
                      ("width=0", "it isn't a number from 0.1 to 6000"), ("snap=11", "it isn't a whole number from 0 to 10"),
                      ("near=maybe", "it is yes or no"), ("b.svg", "a second file"), ("jump", "it is no argument of redwork")):
        status, lines, report = redwork("bird.svg", word)
        expect(word, (2, [], f"redwork: {word}: {why}", True), (status, lines, report[0], report[1].startswith("usage: redwork ")))
    expect("no words", (2, True), (lambda status, _, report: (status, report[0].startswith("usage: redwork ")))(*redwork()))


with tempfile.TemporaryDirectory() as folder:
    os.chdir(folder)
    for test in (test_writing, test_lost_files, test_refusals):
        test()
    os.chdir(HOME)
print(f"redwork: {failed} failed")
sys.exit(failed > 0)
