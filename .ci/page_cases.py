"""Tests the page in Chromium, and its runs in Firefox where it is there: page_cases.py FOLDER PICTURES [WORD..], FOLDER having
stitch.html. Runs the tests here and in page_ways.py whose names have one of the words, or all."""
import os
import random
import struct
import sys
import types

sys.dont_write_bytecode = True
import page_ways  # noqa: E402
from page_browser import FAULTS, TOP, VIEWS, Page, WebDriverException, equal, examples, native, wrong  # noqa: E402
from page_firefox import FirefoxPage, firefox  # noqa: E402

FOLDER, PICTURES, WORDS = sys.argv[1], sys.argv[2], sys.argv[3:]
FORMATS = ["dst", "exp", "pec", "pes", "lst"]


def same(page, program, words, files):
    """Runs a program in the page and as it is built, compares all that they leave, and returns the files."""
    wanted, found = native(program, words, files), page.run(program, words, files)[:4]
    if wanted != found:
        parts = [one for one in range(4) if wanted[one] != found[one]]
        wrong((program, words), [wanted[one] for one in parts], [found[one] for one in parts])
    return wanted[3]


def test_examples(page):
    """Every example in every format by both ways, its conversions, its pictures, and every other command."""
    for name, content in examples(".rw").items():
        drawing = {name: content}
        for ending in FORMATS:
            made = same(page, "stitch", ["route", name, f"a.{ending}", "a.cert"], drawing)
            if len(made) == 2:
                same(page, "stitch", ["check", name, f"a.{ending}", "a.cert"], {**drawing, **made})
                same(page, "stitch", ["show", f"a.{ending}"], made)
                same(page, "stitch_picture", [f"a.{ending}", "a.svg"], made)
            same(page, "stitch", ["double", name, f"a.{ending}", "a.cert"], drawing)
        made = same(page, "stitch", ["route", name, "a.pes", "a.cert"], drawing)
        for words in (["convert", "a.pes", "b.dst"], ["convert", "a.pes", "b.lst", "--cut", "--split"], ["hoop", "a.pes", 500, 700],
                      ["edit", "a.pes", "b.pes", "turn=1", "shift=5,-7", "thread=1,9"], ["trace", "a.pes", "b.rw"]):
            same(page, "stitch", words, {"a.pes": made["a.pes"]})
        same(page, "stitch", ["migrate", name, "b.rw"], drawing)
        for words in (["look", name], ["look", name, 7], ["snap", 3, name, "b.rw"], ["space", name, "b.rw"],
                      ["edit", name, "b.rw", "turn=1", "centre", "step=30"]):
            same(page, "stitch_drawing", words, drawing)
        same(page, "stitch_picture", [name, "a.svg"], drawing)
        same(page, "stitch_picture", [name, "a.cert", "a.svg"], {**drawing, **made})
        same(page, "stitch_picture", ["a.pes", "a.svg", 900, 1200], made)


def test_samples(page):
    """200 sample drawings, each in one of the formats."""
    chance = random.Random(20261130)
    for count in range(200):
        made = same(page, "stitch", ["sample", chance.randint(1, 999999), "a.rw"], {})
        ending = FORMATS[count % 5]
        sewn = same(page, "stitch", ["route", "a.rw", f"a.{ending}", "a.cert"], made)
        same(page, "stitch", ["check", "a.rw", f"a.{ending}", "a.cert"], {**made, **sewn})


def test_refusals(page):
    """Refusals of each kind, missing files, and arguments that request nothing."""
    rose, long = examples("rose.rw")["rose.rw"], examples("long.exp")["long.exp"]
    for words, files in ((["convert", "long.exp", "long.dst"], {"long.exp": long}), (["convert", "a.pes", "b.pes"], {}),
                         (["route", "a.rw", "a.pes", "a.cert"], {"a.rw": b"redwork 4\n"}), ([], {}), (["none"], {}),
                         (["route", "a.rw", "a.pes", "a.cert"], {"a.rw": b"redwork 1\ncolor 1\nline 0 0 0 x\n"}),
                         (["route", "a.rw", "a.dst", "a.cert"], {"a.rw": rose.replace(b"name Rose", b"step 200")}),
                         (["check", "a.rw", "a.exp", "a.cert"], {"a.rw": rose, "a.exp": long, "a.cert": b"none\n"}),
                         (["show", "a.pes"], {"a.pes": b"short"}), (["show", "\u00e4 \u4e2d.exp"], {"\u00e4 \u4e2d.exp": long}),
                         (["sample", "0", "a.rw"], {}), (["hoop", "long.exp", "1", "1"], {"long.exp": long})):
        same(page, "stitch", words, files)
    for words, files in ((["look", "a.rw"], {"a.rw": b"\xff\x00"}), (["snap", "101", "a.rw", "b.rw"], {"a.rw": rose}),
                         (["edit", "a.rw", "b.rw", "order=1,9"], {"a.rw": rose}), (["edit", "a.rw", "b.rw", "start=1,1"], {"a.rw": rose})):
        same(page, "stitch_drawing", words, files)
    for words, files in ((["a.rw", "a.svg"], {}), (["long.exp", "a.png"], {"long.exp": long}),
                         (["a.rw", "a.cert", "a.svg"], {"a.rw": rose, "a.cert": b"redwork-certificate 1\nend\n"})):
        same(page, "stitch_picture", words, files)


def grid(size):
    """A drawing of about 2 size * size lines, no two junctions of which are alike."""
    chance = random.Random(size)
    at = {(i, j): (100 * i + chance.randrange(50), 100 * j + chance.randrange(50)) for i in range(size + 1) for j in range(size + 1)}
    lines = [(at[i, j], at[i + 1, j]) for j in range(size + 1) for i in range(size)]
    lines += [(at[i, j], at[i, j + 1]) for i in range(size + 1) for j in range(size)]
    return ("redwork 2\ncolor 1\n" + "".join(f"line {a} {b} {c} {d}\n" for (a, b), (c, d) in lines)).encode()


def test_limits(page):
    """A drawing at the limit of lines, one at the limit of steps, and designs of up to 1,000,000 commands, below 1 GB."""
    steps = ("redwork 1\nstep 1\ncolor 1\n" + "".join(f"line -30000 {y} 30000 {y}\n" for y in (0, 20, 40))).encode()
    turns = [(1, 0), (0, 1), (-1, 0), (0, -1)]
    long = b"".join(struct.pack("bb", *turns[k % 4]) for k in range(1000000))
    listed = native("stitch", ["convert", "a.exp", "a.lst"], {"a.exp": long[:-2]})[3]["a.lst"]
    for program, words, files in (("stitch", ["route", "a.rw", "a.pes", "a.cert"], {"a.rw": grid(21)}),
                                  ("stitch_drawing", ["look", "a.rw"], {"a.rw": grid(21)}),
                                  ("stitch", ["route", "a.rw", "a.dst", "a.cert"], {"a.rw": steps}),
                                  ("stitch", ["convert", "a.exp", "b.pes"], {"a.exp": long}),
                                  ("stitch", ["convert", "a.lst", "b.lst"], {"a.lst": listed}),
                                  ("stitch_picture", ["a.exp", "b.svg"], {"a.exp": long})):
        same(page, program, words, files)
        reply = page.run(program, words, files)[4]
        print(f"page: {program} {words[0]}: {reply['milliseconds']:.0f} ms, {reply['memory'] / 1e6:.0f} MB")
        if reply["memory"] > 1e9:
            wrong((program, words), "below 1 GB", reply["memory"])


def test_svg(page):
    """The drawings of SVG files are those of from_svg.py, for the rows of .ci/svg_cases.py that are drawn, and the examples."""
    sys.path.insert(0, os.path.join(TOP, "examples"))
    try:
        import from_svg as ours
    except ImportError:
        ours = None
    if ours is None or ours.library is None:
        print("page: no svgelements: SVG files aren't compared")
        return
    rows = [(content.decode(), {}) for content in examples(".svg").values()] + svg_rows(ours)
    drawn = 0
    for document, options in rows:
        source, target = os.path.join(FOLDER, "a.svg"), os.path.join(FOLDER, "a.rw")
        with open(source, "w", encoding="utf-8") as file:
            file.write(document)
        words = [f"--{name}" if value is True else f"--{name}={value}" for name, value in options.items()]
        status, report = ours.run([source, target, *words])
        given = {{"centre": "isCentred"}.get(name, name): value for name, value in options.items()}
        found = page.driver.execute_async_script("""const [document, options, done] = arguments;
            window.stitch.svg(document, options).then(done, why => done({ failed: String(why) }));""", document, given)
        if (status == 0) != ("text" in found) or status == 0 and open(target).read() != found["text"]:
            wrong(document[:300], (status, report), found)
        drawn += status == 0
    print(f"page: of {len(rows)} SVG files {drawn} were drawn")


def svg_rows(ours):
    """The documents of .ci/svg_cases.py, with their options, but for those that take long."""
    rows = []

    def run(words):
        try:
            found = ours.options_of(words)
            content = open(found[0][0], "rb").read()
            if len(content) < 50000:
                rows.append((content.decode(), found[1]))
        except (ours.WrongWord, UnicodeDecodeError):
            pass
        return ours.run(words)
    # its spoiled files are left out, and so is its alarm, since here the machine may be slow
    code = open(os.path.join(TOP, ".ci", "svg_cases.py")).read()
    code = code.replace("range(2000)", "range(0)").replace("ITIMER_PROF, 10)", "ITIMER_PROF, 0)")
    argv, before = sys.argv, sys.modules["from_svg"]
    sys.argv, sys.modules["from_svg"] = ["svg_cases.py", FOLDER], types.SimpleNamespace(run=run)
    try:
        exec(compile(code, "svg_cases.py", "exec"), {"__file__": os.path.join(TOP, ".ci", "svg_cases.py"), "__name__": "svg_cases"})
    except SystemExit:
        pass
    finally:
        sys.argv, sys.modules["from_svg"] = argv, before
    return rows


def test_stop(page):
    """A run that is stopped ends, and the next one goes on."""
    page.driver.execute_script("""const turns = [1, 0, 0, 1, -1, 0, 0, -1], bytes = new Uint8Array(2000000).map((_, k) => turns[k % 8]);
        window.ended = ''; window.stitch.run('stitch_picture', ['a.exp', 'b.svg'], [{ name: 'a.exp', bytes }])
            .then(() => { window.ended = 'done'; }, () => { window.ended = 'stopped'; });""")
    page.click("Stop")
    page.until(lambda: page.driver.execute_script("return window.ended") == "stopped")
    same(page, "stitch", ["sample", 75, "a.rw"], {})


def test_faults_in_text(page):
    """A line of the text that is refused is marked, and undone it is right again."""
    page.drop(examples("rose.rw"))
    page.type(page.typed().replace("color 5", "colour 5"))
    page.until(lambda: page.shown(".gutter .wrong"))
    equal("the marked line", ("12", "Line 12 of the text: word not understood."), (page.says(".gutter .wrong")[0], page.says(".refused")[0]))
    page.click("Undo")
    page.until(lambda: not page.shown(".gutter .wrong"))


def test_names(page):
    """Every control has a name for a screen reader, and the tabs go by arrow keys."""
    page.drop(examples("rose.rw"))
    for view in VIEWS:
        page.view(view)
        page.js("for (const one of document.querySelectorAll('details')) one.open = true;")
        for control in page.shown("button, input, select, textarea, canvas[role=img], [role=group], [role=region], img, svg[role=img]"):
            if not control.accessible_name:
                wrong(f"{view}: a control without a name", "a name", control.get_attribute("outerHTML")[:200])
    tab = page.shown("[role=tab][aria-selected=true]")[0]
    tab.send_keys("\ue012")
    equal("an arrow key", VIEWS[-2], page.says("[role=tab][aria-selected=true]")[0])


def test_pictures(page):
    """Screenshots of each view, wide, narrow and with large letters, light and dark. Nothing is wider than the page."""
    made = native("stitch", ["route", "rose.rw", "rose.pes", "rose.cert"], examples("rose.rw"))[3]
    for width, scale, scheme in ((1280, 1, "light"), (400, 1, "light"), (640, 2, "light"), (1280, 1, "dark")):
        page.driver.execute_cdp_cmd("Emulation.setEmulatedMedia", {"features": [{"name": "prefers-color-scheme", "value": scheme}]})
        page.resize(width, 1000, scale)
        page.fresh()
        shoot(page, f"first-{scheme}", width, scale)
        page.drop({**examples("rose.rw"), **made})
        page.drop({"rose.pes": made["rose.pes"], "long.exp": examples("long.exp")["long.exp"]})
        page.drop(examples("snail.svg"))
        shoot(page, f"svg-{scheme}", width, scale)
        page.click("Make it ready")
        page.settle()
        for view in VIEWS:
            page.view(view)
            shoot(page, f"{view.lower().replace(' ', '-')}-{scheme}", width, scale)
    page.driver.execute_cdp_cmd("Emulation.setEmulatedMedia", {"features": []})
    page.resize(1280, 900)


def shoot(page, name, width, scale):
    """A screenshot of the entire page."""
    size = page.js("return [document.documentElement.scrollWidth, document.documentElement.scrollHeight]")
    if size[0] > width:
        wrong(f"{name}: the width", width, size[0])
    page.resize(width, min(max(size[1], 700), 3000), scale)
    page.picture(os.path.join(PICTURES, f"{name}-{width * scale}-{scale}.png"))
    page.resize(width, 1000, scale)


def test_in_firefox(_):
    """The examples, the samples, the refusals and the limits once more, in Firefox, and the ways that a person goes."""
    if firefox() is None:
        print("page: there is no firefox-esr: not tested in Firefox")
        return
    saved = os.path.join(FOLDER, "saved-in-firefox")
    os.mkdir(saved)
    page = FirefoxPage(os.path.join(FOLDER, "stitch.html"), saved)
    try:
        print(f"page: in Firefox {page.version}")
        for test in (test_examples, test_samples, test_refusals, test_limits):
            test(page)
        for name, test in vars(page_ways).items():
            if name.startswith("test_") and not hasattr(test, "only_in_chromium"):
                page.fresh()
                test(page)
    finally:
        page.close()


def main():
    saved = os.path.join(FOLDER, "saved")
    os.mkdir(saved)
    page = Page(os.path.join(FOLDER, "stitch.html"), saved, (1280, 900))
    tests = {name: test for module in (globals(), vars(page_ways)) for name, test in module.items() if name.startswith("test_")}
    try:
        for name, test in tests.items():
            if not WORDS or any(word in name for word in WORDS):
                try:
                    page.fresh()
                    test(page)
                except (AssertionError, IndexError, WebDriverException) as why:
                    wrong(name, "no failure", f"{type(why).__name__}: {why}")
                for fault in page.faults():
                    wrong(name, "no fault", fault)
    finally:
        page.driver.quit()
    print(f"page: {len(FAULTS)} failed")
    return len(FAULTS) > 0


if __name__ == "__main__":
    sys.exit(main())
