"""The ways that a person goes in the page, for .ci/page_cases.py: each test begins with a page that keeps no work."""
import io
import re
import struct
import time
import zipfile

from page_browser import By, Page, VIEWS, equal, examples, native, wrong


def in_chromium(test):
    """Marks a test that takes what only Chromium's driver has."""
    test.only_in_chromium = True
    return test


# What the page does with a drawing that is made ready, as commands of the built programs.
READY = (["snap", 2, "a.rw", "b.rw"], ["cross", "b.rw", "c.rw"], ["space", "c.rw", "d.rw"], ["free", "d.rw", "e.rw"], ["near", "e.rw", "f.rw"])
LONG = b"redwork 3\nstep 25\ncolor 5\nline 0 0 1000 0\n"
SVG = '<svg xmlns="http://www.w3.org/2000/svg" width="100mm" height="100mm" viewBox="0 0 100 100">%s</svg>'
LINE = '<path d="M10 10h50v30" fill="none" stroke="red"/>'


def ready(drawing):
    """The drawing after all steps, by the built programs."""
    files = {"a.rw": drawing}
    for words in READY:
        files = {**files, **native("stitch_drawing", words, files)[3]}
    return files["f.rw"]


def tied(base, drawing, edits=("tie=10",)):
    """The design, its certificate and the design for the machine, by the built programs."""
    made = native("stitch", ["route", f"{base}.rw", f"{base}.pes", f"{base}.cert"], {f"{base}.rw": drawing})[3]
    return made, native("stitch_design", ["edit", f"{base}.pes", "m.pes", *edits], made)[3]["m.pes"]


def test_freeze(page):
    """A text that is refused stops nothing: each view is shown, nothing is asked twice, and the page answers."""
    page.drop({"heart.rw": examples("heart.rw")["heart.rw"]})
    page.view("Design")
    page.view("Drawing")
    page.type(page.typed() + "oops\n")
    equal("the refused line", ["Line 7 of the text: word not understood."], page.says("#view-drawing [role=alert].refused")[:1])
    for view in VIEWS + VIEWS[::-1]:
        page.view(view)
        before = page.js("return window.stitch.count()")
        time.sleep(0.3)
        equal(f"{view}: runs without end", before, page.js("return window.stitch.count()"))
    page.view("Design")
    if not page.says("#view-design .refused"):
        wrong("the refusal in the design", "a line", "none")
    page.view("Drawing")
    page.click("Undo")
    page.settle()
    page.view("Design")
    page.until(lambda: "Save heart-machine.pes" in page.says("button"))


def test_refusals_and_views(page):
    """After a refusal of each kind every view is shown, and asks for nothing without end."""
    refused = {"drawing": {"a.rw": b"redwork 9\n"}, "SVG": {"a.svg": (SVG % '<text x="1" y="9">t</text>').encode()}, "XML": {"a.svg": b"<svg"},
               "stitch file": {"a.pes": b"#PES0001"}, "three files": {**examples("rose.rw"), "rose.pes": b"x", "rose.cert": b"y"},
               "unknown": {"a.png": b"\x89PNG"}}
    for name, files in refused.items():
        page.drop(files)
        for view in VIEWS:
            page.view(view)
            before = page.js("return window.stitch.count()")
            time.sleep(0.15)
            equal(f"{name} in {view}", before, page.js("return window.stitch.count()"))
        if not page.is_idle():
            wrong(name, "an idle page", "a run")


def test_last_wins(page):
    """Of several changes in a row the last one is shown, and a run that is outdated ends."""
    page.drop(examples("house.rw"))
    for step in range(21, 31):
        page.js("""const area = document.querySelector('textarea'); area.value = area.value.replace(/^step .*$/m, `step ${arguments[0]}`);
            area.dispatchEvent(new Event('input', { bubbles: true }));""", step)
        time.sleep(0.42)
    page.settle()
    found = page.js("return [...document.querySelectorAll('#view-drawing input')].find(one => one.labels[0]?.textContent === 'Longest stitch'"
                    " && one.step === '0.1' && one.value).value")
    equal("the longest stitch", "3", found)
    page.view("Design")
    wanted = native("stitch", ["route", "a.rw", "a.pes", "a.cert"], {"a.rw": page.typed().encode()})[1].split()[-1]
    equal("its penetrations", wanted, page.says(".count strong")[0])


def test_unknown_files(page):
    """Files of no known kind, and those that are too large, are refused before they are read; the drawing stays."""
    page.drop(examples("rose.rw"))
    words = page.typed()
    page.js("""window.reads = 0; const read = Blob.prototype.arrayBuffer;
        Blob.prototype.arrayBuffer = function () { window.reads += 1; return read.call(this); };""")
    for name in ("old.jef", "all.zip", "photo.png", "none", "wrong.txt"):
        page.drop({name: b"\x00\x01PK"})
        if not any(name in line for line in page.says(".refused")):
            wrong(f"{name} is refused", name, page.says(".refused"))
    equal("what is read of them", 1, page.js("return window.reads"))
    page.js("""const given = new DataTransfer(); given.items.add(new File([new Uint8Array(3e7)], 'large.xyz'));
        given.items.add(new File([new Uint8Array(3e7)], 'large.rw')); given.items.add(new File([new Uint8Array(3e7)], 'large.svg'));
        window.reads = 0; document.querySelector('main').dispatchEvent(new DragEvent('drop', { dataTransfer: given, bubbles: true, cancelable: true }));""")
    page.until(lambda: sum("large." in line for line in page.says(".refused")) == 3, 30)
    equal("what is read of 30 MB", 0, page.js("return window.reads"))
    page.view("Drawing")
    equal("the drawing", words, page.typed())
    page.view("Open")
    equal("refusals that are told once", [], page.says(".refused"))


def test_history(page):
    """Each drawing that is opened is a step: the one before comes back by Undo, with its name."""
    for name in ("rose.rw", "heart.rw"):
        page.drop(examples(name))
    page.drop(examples("bird.svg"))
    page.view("Drawing")
    for name in ("heart.rw", "rose.rw"):
        page.click("Undo")
        page.settle()
        equal(f"{name} comes back", examples(name)[name].decode(), page.typed())
    page.view("Design")
    page.until(lambda: "Save rose-machine.pes" in page.says("button"))


def test_kept(page):
    """The drawing, its steps and what was chosen come back when the page is opened again."""
    page.view("Open")
    page.set("Hoop", "130,180")
    page.drop(examples("house.rw"))
    page.click("Snap")
    page.settle()
    made, steps = page.typed(), page.says(".steps li")
    made_file = native("stitch", ["route", "rose.rw", "rose.pes", "rose.cert"], examples("rose.rw"))[3]["rose.pes"]
    page.drop({"rose.pes": made_file})
    page.view("Drawing")
    time.sleep(0.6)
    page.open()
    equal("the view", "Drawing", page.says("[role=tab][aria-selected=true]")[0])
    equal("the text", made, page.typed())
    equal("the steps", steps, page.says(".steps li"))
    equal("the hoop", "130,180", page.js("return [...document.querySelectorAll('select')].find(one => one.checkVisibility()).value"))
    page.view("Convert")
    equal("the stitch file", "rose.pes", page.says("#view-convert td button")[0])


def leaves(page):
    """Whether the page would be left without a question."""
    return page.js("const event = new Event('beforeunload', { cancelable: true }); window.dispatchEvent(event); return !event.defaultPrevented;")


def test_leaving(page):
    """Leaving asks where something was made and not saved."""
    equal("nothing is open", True, leaves(page))
    page.drop(examples("house.rw"))
    equal("a file is open", True, leaves(page))
    page.click("Make it ready")
    page.settle()
    equal("something was made", False, leaves(page))
    page.click("Save house-machine.pes")
    page.saved_file("house-machine.pes")
    equal("it was saved", True, leaves(page))


def test_several(page):
    """Several files at once are all taken: drawings to choose from, stitch files in a table, and all of them converted into a zip."""
    page.drop({**examples("rose.rw"), **examples("bird.svg")})
    page.click("rose.rw", "#view-open section button")
    page.settle()
    equal("the one that is chosen", examples("rose.rw")["rose.rw"].decode(), page.typed())
    files = {}
    for name in ("rose", "heart", "square"):
        drawing = examples(f"{name}.rw")[f"{name}.rw"]
        files[f"{name}.pes"] = native("stitch", ["route", "a.rw", "a.pes", "a.cert"], {"a.rw": drawing})[3]["a.pes"]
    files["broken.pes"] = b"broken"
    page.drop(files)
    rows = page.says("#view-convert tbody tr")
    equal("files in the table", sorted(files), sorted(page.says("#view-convert td:first-child button")))
    needles = re.search(r"needles (\d+)", native("stitch", ["show", "rose.pes"], {"rose.pes": files["rose.pes"]})[1])[1]
    if not any(row.startswith("rose.pes") and needles in row.split() for row in rows):
        wrong("the row of rose.pes", f"{needles} needles", rows)
    page.set("To", "dst")
    page.click("Convert all into one zip")
    kept = zipfile.ZipFile(io.BytesIO(page.saved_file("dst.zip")))
    for name in ("rose", "heart", "square"):
        wanted = native("stitch", ["convert", "a.pes", "a.dst"], {"a.pes": files[f"{name}.pes"]})[3]["a.dst"]
        equal(f"{name}.dst in the zip", wanted, kept.read(f"{name}.dst"))
    equal("what is said of them", 2, len(page.js("return document.querySelector('#view-convert .said').textContent").split("\n")))


def test_ready(page):
    """From an SVG file to a tied PES in three clicks: the file, Make it ready, Save. What is saved is what the built programs write."""
    page.drop(examples("house.rw"))
    page.click("Make it ready")
    page.settle()
    drawing = ready(examples("house.rw")["house.rw"])
    made, machine = tied("house", drawing)
    page.click("Save house-machine.pes")
    equal("house-machine.pes", machine, page.saved_file("house-machine.pes"))
    for name, content in {**made, "house.rw": drawing}.items():
        page.click(f"Save {name}", ".files button")
        equal(name, content, page.saved_file(name))
    equal("what was done", ["Snap", "Join crossings", "Even stitches", "Free ends", "Less travel"], page.says("#view-design .steps strong"))
    equal("its lengths", True, "Way between pieces: 214.2 mm before, 136.5 mm now." in page.says("#view-design .steps li")[-1])
    page.click("Undo all of it")
    page.settle()
    page.view("Drawing")
    equal("undone", examples("house.rw")["house.rw"].decode(), page.typed())
    page.drop(examples("bird.svg"))
    page.click("Make it ready", "#view-open button")
    page.settle()
    page.click("Save bird-machine.pes")
    saved = page.saved_file("bird-machine.pes")
    page.view("Drawing")
    equal("bird-machine.pes", tied("bird", page.typed().encode())[1], saved)


def test_ready_refused(page):
    """A step that is refused is told, and the others are done."""
    page.drop({"a.rw": b"redwork 1\ncolor 1\nline 0 0 200 0 400 0\nline 200 0 200 300\n"})
    page.click("Make it ready")
    page.settle()
    equal("the first step", "Meet where lines touch", page.says("#view-design .steps strong")[0])
    equal("its pieces", "needle penetrations in pieces: 1", page.says("#view-design .count")[0].split(" ", 1)[1])


def test_finish(page):
    """Ties come after merging, and the tied design is the one that is shown, played and checked."""
    drawing = b"redwork 2\nstep 25\ncolor 5\nline 0 0 0 4 12 4 30 4 55 4\n"
    watch_pictures(page)
    page.drop({"short.rw": drawing})
    page.view("Design")
    page.set("Leave out stitches shorter than", None)
    for edits, value in ((("merge=5", "tie=10"), None), (("merge=10", "tie=10"), "1")):
        if value:
            page.js("""const found = [...document.querySelectorAll('input[type=number]')].find(one => one.checkVisibility()
                && one.getAttribute('aria-label') === 'Leave out stitches shorter than');
                found.value = arguments[0]; found.dispatchEvent(new Event('change', { bubbles: true }));""", value)
            page.settle()
        machine = tied("short", drawing, edits)[1]
        equal("merged, then tied", False, machine == tied("short", drawing, edits[::-1])[1])
        page.click("Save short-machine.pes")
        equal(f"after {edits}", machine, page.saved_file("short-machine.pes"))
    picture = native("stitch_picture", ["short.pes", "out.svg", 1000, 1000], {"short.pes": machine})[3]["out.svg"]
    page.click("Save short-picture.svg")
    equal("the picture of the tied design", picture, page.saved_file("short-picture.svg"))
    equal("the picture that is shown", picture.decode(), shown_picture(page))
    acts = native("stitch", ["convert", "a.pes", "a.lst"], {"a.pes": machine})[3]["a.lst"].decode()
    page.view("Play")
    equal("the acts of the tied design are played", len(re.findall("^(?:needle|float|trim)", acts, re.M)),
          int(page.js("return document.querySelector('#view-play input[type=range]').max")))


def shown_picture(page):
    """The text of the picture that is shown as an image, of those that were made since `watch_pictures`."""
    return page.js_later("""const done = arguments[0], image = [...document.querySelectorAll('.frame img')]
        .find(one => one.checkVisibility()); window.blobs.get(image.src).text().then(done);""")


def watch_pictures(page):
    page.js("""window.blobs = new Map(); const made = URL.createObjectURL;
        URL.createObjectURL = blob => { const address = made.call(URL, blob); window.blobs.set(address, blob); return address; };""")


def hooped(page):
    """The hoop of the drawing's picture: its sides and its class."""
    return page.js("const one = document.querySelector('.drawn rect'); return one && [...['width', 'height'].map(name => Number("
                   "one.getAttribute(name))), one.getAttribute('class')]")


def test_hoop(page):
    """The hoop is chosen once and shown everywhere; its sides aren't exchanged; what doesn't fit says so, and which width fits."""
    page.view("Open")
    page.set("Hoop", "own")
    page.set("Width of the hoop", 100)
    page.set("Height of the hoop", 60)
    page.drop(examples("house.rw"))
    equal("100 x 60", [1000, 600, "hoop"], hooped(page))
    page.view("Design")
    _, machine = tied("house", examples("house.rw")["house.rw"])
    for sides in ((1000, 600), (600, 1000)):
        page.set("Width of the hoop", sides[0] / 10)
        page.set("Height of the hoop", sides[1] / 10)
        picture = native("stitch_picture", ["house.pes", "o.svg", *sides], {"house.pes": machine})[3]["o.svg"]
        page.click("Save house-picture.svg")
        equal(f"the saved picture {sides}", picture, page.saved_file("house-picture.svg"))
        wanted = {"fits upright": "It fits the hoop upright.", "fits turned": "It fits the hoop turned by a quarter."}
        said = native("stitch", ["hoop", "a.pes", *sides], {"a.pes": machine})[1].strip()
        equal(f"fits {sides}", True, wanted[said] in page.says("#view-design .said"))
    page.view("Drawing")
    page.set("Hoop", "100,100")
    page.drop({"long.rw": b"redwork 2\ncolor 5\nline 0 0 1500 0 1500 700\n"})
    equal("too large", True, page.says(".warning")[0].startswith("It is 150.0 × 70.0 mm large, and doesn't fit the hoop of 100.0 × 100.0 mm."))
    page.click("Make it 99.0 mm wide")
    page.settle()
    equal("made smaller", "line 0 0 990 0 990 462", page.typed().strip().split("\n")[-1])
    equal("it fits", [1000, 1000, "hoop"], hooped(page))
    page.drop({"wide.svg": (SVG.replace('width="100mm" height="100mm" viewBox="0 0 100 100"', 'width="200mm" height="100mm" viewBox="0 0 200 100"')
                            % '<path d="M10 10h180v60" fill="none" stroke="red"/>').encode()})
    page.click("Make it 99.0 mm wide")
    page.settle()
    page.set("Height", 20)
    page.view("Drawing")
    equal("read again by its height", "line 100 100 700 100 700 300", page.typed().strip().split("\n")[-1])


def test_free(page):
    """Free ends are never left out in silence: a line of 100 mm has 81 penetrations, and 41 with them."""
    page.drop({"long.rw": LONG})
    page.view("Design")
    equal("without", "81", page.says(".count strong")[0])
    equal("what is said", True, page.says(".warning")[0].startswith("With free ends it needs 40 fewer needle penetrations"))
    page.click("Free ends")
    page.settle()
    equal("with", "41", page.says(".count strong")[0])
    equal("nothing more is said", [], page.says(".warning"))


def test_places(page):
    """Places come by kind, repeated lines as one, with a ring at what is chosen alone; a hint goes, and recommends nothing that is refused."""
    page.drop(examples("house.rw"))
    equal("the kinds", ["Lines that touch, and aren't joined: 11", "Line ends that nearly meet a line: 1", "Crossings that aren't joined: 11"],
          page.says("#view-drawing details:not(.more) summary")[-3:])
    equal("no ring", 0, len(page.shown(".drawn .ring")))
    page.js("for (const one of document.querySelectorAll('#view-drawing details')) one.open = true;")
    page.until(lambda: page.shown("#view-drawing details ol button"))
    page.js("document.querySelector('#view-drawing details ol button').click()")
    equal("one ring", 1, len(page.shown(".drawn .ring")))
    equal("the hint", True, any(line.startswith("Lines nearly meet") for line in page.says("#view-drawing .hint")))
    page.click("Snap")
    page.settle()
    equal("the next hint", False, any(line.startswith("Lines nearly meet") for line in page.says("#view-drawing .hint")))
    # all points of the short line would become one, so that Snap is refused
    page.drop({"tiny.rw": b"redwork 2\ncolor 5\nline 0 0 1 0\nline 3 0 50 0\n"})
    if native("stitch_drawing", ["snap", 2, "a.rw", "b.rw"], {"a.rw": page.typed().encode()})[0] == 1:
        equal("no hint that is refused", [], [line for line in page.says("#view-drawing .hint") if "Snap" in line or "nearly meet" in line])
    page.drop({"twice.rw": b"redwork 2\ncolor 5\nline 0 0 50 0 100 0 150 0\nline 0 0 50 0 100 0 150 0\n"})
    page.js("for (const one of document.querySelectorAll('#view-drawing details:not(.more)')) one.open = true;")
    page.until(lambda: page.shown("#view-drawing details ol li"))
    equal("repeated lines", 1, len(page.shown("#view-drawing details ol li")))


@in_chromium
def test_points(page):
    """A point is chosen by a click, which doesn't move the picture, or by buttons; a piece begins there."""
    page.drop({"tee.rw": b"redwork 3\ncolor 5\nline 0 0 50 0 100 0\nline 50 0 50 50\n"})
    frame = page.driver.find_element(By.CSS_SELECTOR, "#view-drawing .frame")
    before = frame.rect
    frame.click()
    equal("the picture stays", before, frame.rect)
    equal("a point is chosen", 1, len(page.shown(".drawn .point")))
    page.drop({"tee.rw": b"redwork 3\ncolor 6\nline 0 0 50 0 100 0\nline 50 0 50 50\n"})
    for _ in range(2):
        page.click("Next point")
    equal("the second point", True, "5.0 0.0 mm" in " ".join(page.says("[role=status]")))
    page.click("Point before")
    page.click("Begin here")
    page.settle()
    equal("a start", True, "\nstart 0 0" in page.typed())
    page.set("x", 1)
    page.click("End here")
    page.settle()
    equal("a point that isn't there", ["No line has this point. Choose a point of a line in the picture."], page.says(".said.refused"))
    page.click("Next point")
    page.click("Undo")
    page.settle()
    equal("the refusal goes", [], page.says(".said.refused"))


def test_svg_remedies(page):
    """What a refusal of an SVG file recommends is beside it."""
    clip = '<clipPath id="c"><rect width="20" height="20"/></clipPath><path clip-path="url(#c)" d="M1 1h50v9" fill="none" stroke="red"/>'
    ground = '<rect width="90" height="100" fill="yellow"/>' + LINE
    many = "".join(f'<path d="M{k * 0.8} 0c0 30 9 60 0 90" fill="none" stroke="red"/>' for k in range(120))
    for name, inside, remedy in (("clip", clip, "Release the clips, and sew all of their lines"),
                                 ("background", ground, "Leave filled shapes out, as a background"),
                                 ("outlines", '<rect width="50" height="40" fill="blue"/>', "Sew the outlines of shapes without a stroke"),
                                 ("no stroke", '<path d="M10 10h50v30" fill="none"/>', "Sew the outlines of shapes without a stroke"),
                                 ("sheet", "<style>@media print { path { fill: red } }</style>" + LINE, "Read it without its style sheets"),
                                 ("selector", "<style>path:hover { fill: red }</style>" + LINE, "Read it without its style sheets")):
        page.drop({f"{name}.svg": (SVG % inside).encode()})
        page.click(remedy)
        page.settle()
        equal(f"{name} is read", f"Open: {name}.svg", " ".join(page.says("#view-open h2")[-1:]))
    page.view("Drawing")
    equal("the last drawing", True, "line 100 100 600 100 600 400" in page.typed())
    page.drop({"text.svg": (SVG % '<text x="9" y="9">words</text>').encode()})
    equal("nothing would be left", True, any(line.startswith("Without these things nothing is left") for line in page.says("#view-open p")))
    equal("and so it isn't offered", False, "Leave them out" in page.says("button"))
    page.drop({"empty.svg": (SVG % "").encode()})
    equal("an empty file", True, any("give the lines a stroke colour" in line for line in page.says("#view-open li")))
    page.drop({"many.svg": (SVG % many).replace("100mm", "900mm").encode()})
    if not page.says("#view-open .refused"):
        wrong("too many points", "a refusal", page.says("#view-open h2"))
    page.set("Width", 200)
    equal("with a smaller width", "Open: many.svg", " ".join(page.says("#view-open h2")[-1:]))


def test_tied_check(page):
    """Check takes ties away from a design, and says so; another design is a no, with or without ties."""
    rose = examples("rose.rw")
    made, machine = tied("rose", rose["rose.rw"])
    bean = native("stitch_design", ["edit", "rose.pes", "b.pes", "bean=1", "tie=10"], made)[3]["b.pes"]
    for design, answer, isSaid in ((made["rose.pes"], "yes", False), (machine, "yes", True), (bean, "no", True)):
        page.drop({**rose, "rose.cert": made["rose.cert"], "rose.pes": design})
        equal("the answer", answer, page.says(".answer .yes, .answer .no")[0])
        equal("what is said of ties", isSaid, any("after the ties" in line for line in page.says(".answer p")))


def test_play(page):
    """Play begins at the beginning, with its buttons in sight; keys work wherever the focus is, and needle points stay."""
    page.drop(examples("heart.rw"))
    page.view("Play")
    now = lambda: int(page.js("return document.querySelector('#view-play input[type=range]').value"))  # noqa: E731
    equal("it begins", 0, now())
    bottom = page.js("return Math.max(...[...document.querySelectorAll('#view-play button')].filter(one => one.checkVisibility())"
                     ".map(one => one.getBoundingClientRect().bottom))")
    equal("buttons are in sight", True, bottom < 850)
    last = int(page.js("return document.querySelector('#view-play input[type=range]').max"))
    for focus in ("body", "#view-play .stage", "#view-play input[type=range]", "#view-play"):
        page.focus(focus)
        for key, wanted in (("\ue010", last), ("\ue012", last - 1), ("\ue011", 0), ("\ue014", 1)):
            page.press(key)
            equal(f"key {key!r} in {focus}", wanted, now())
        page.press(" ")
        page.until(lambda: now() > 3)
        page.press(" ")
        page.until(lambda: "Play" in page.says("#view-play button.primary"))
        stopped = now()
        time.sleep(0.3)
        equal(f"the space bar in {focus}", stopped, now())
        page.press("\ue011")
    page.click("One on")
    page.press(" ")
    page.until(lambda: now() > 3)
    page.press(" ")
    page.press("\ue010")
    page.until(lambda: now() == last)
    time.sleep(0.5)
    dark = """const { width, height } = document.querySelectorAll('#view-play canvas')[1], canvas = new OffscreenCanvas(width, height);
        const pen = canvas.getContext('2d', { willReadFrequently: true }); pen.drawImage(document.querySelectorAll('#view-play canvas')[1], 0, 0);
        const { data } = pen.getImageData(0, 0, width, height); let count = 0; for (let k = 3; k < data.length; k += 4) count += data[k] > 0; return count;"""
    whole = page.js(dark)
    page.press("\ue011")
    page.press(" ")
    page.until(lambda: now() >= last // 2)
    page.press(" ")
    if not page.js(dark) > whole // 4:
        wrong("needle points while it runs", f"about half of {whole}", page.js(dark))


def test_words(page):
    """Lengths are in mm, and no file has the name of another."""
    page.drop(examples("house.rw"))
    for step in ("Snap", "Join crossings", "Even stitches", "Free ends", "Less travel"):
        page.click(step)
        page.settle()
    seen = "\n".join(page.says(".steps li"))
    for bad in ("travel ", "penetrations 2", "moved ", "crossings "):
        if bad in seen:
            wrong("words of the programs", f"none of {bad}", seen)
    page.view("Design")
    names = page.says(".files strong")
    equal("names of files", len(names), len(set(names)))
    equal("the picture's name", True, "house-picture.svg" in names and "house.svg" not in names)
    page.view("What is proved")
    first = page.says("#view-proved .lead p")
    equal("three sentences first", 3, len(first))


# Widths, and how large letters are: 200 of a hundred is half the width at twice the pixels.
SIZES = ((1280, 1), (640, 2), (400, 1))
# The contrast of each text with what is behind it, and what is too low.
CONTRAST = """const rgb = text => { const [r, g, b, a = 1] = text.match(/[\\d.]+/g).map(Number); return [r, g, b, a]; };
const lum = ([r, g, b]) => { const [x, y, z] = [r, g, b].map(part => part / 255 <= 0.04045 ? part / 255 / 12.92 : ((part / 255 + 0.055) / 1.055) ** 2.4);
    return 0.2126 * x + 0.7152 * y + 0.0722 * z; };
const behind = one => { for (; one; one = one.parentElement) { const found = rgb(getComputedStyle(one).backgroundColor); if (found[3] > 0.99) return found; }
    return [255, 255, 255, 1]; };
return [...document.querySelectorAll('body *')].filter(one => one.checkVisibility() && !one.closest('svg, option, [aria-hidden]')
    && [...one.childNodes].some(node => node.nodeType === 3 && node.data.trim()) && !one.disabled && !one.closest(':disabled')).map(one => {
    const [text, ground] = [rgb(getComputedStyle(one).color), behind(one)].map(lum);
    const ratio = (Math.max(text, ground) + 0.05) / (Math.min(text, ground) + 0.05);
    return ratio < 4.5 ? `${one.localName} ${one.textContent.trim().slice(0, 30)}: ${ratio.toFixed(2)}` : null; }).filter(Boolean);"""


@in_chromium
def test_looks(page):
    """In each view, light and dark: texts have contrast, controls have names, headings and the focus go in order, nothing is too wide."""
    made = native("stitch", ["route", "rose.rw", "rose.pes", "rose.cert"], examples("rose.rw"))[3]
    page.drop({**examples("rose.rw"), **made})
    page.drop({"rose.pes": made["rose.pes"]})
    page.drop(examples("bird.svg"))
    for scheme in ("dark", "light"):
        page.driver.execute_cdp_cmd("Emulation.setEmulatedMedia", {"features": [{"name": "prefers-color-scheme", "value": scheme}]})
        for view in VIEWS:
            page.view(view)
            page.js("for (const one of document.querySelectorAll('details')) one.open = true;")
            equal(f"contrast in {view}, {scheme}", [], page.js(CONTRAST))
            for width, zoom in SIZES:
                page.driver.execute_cdp_cmd("Emulation.setDeviceMetricsOverride", {"width": width, "height": 900, "deviceScaleFactor": zoom,
                                                                                   "mobile": False})
                equal(f"the width of {view} at {width}", True, page.js("return document.documentElement.scrollWidth") <= width)
            page.resize(1280, 900)
            order = page.js("""return [...document.querySelectorAll('button, input, select, textarea, a, summary, [tabindex]')]
                .filter(one => one.checkVisibility() && one.tabIndex > 0).length;""")
            equal(f"the focus goes in the page's order in {view}", 0, order)
            levels = [int(one.tag_name[1]) for one in page.shown(f"#view-{view.split()[-1].lower()} :is(h2, h3, h4)")]
            if any(after > before + 1 for before, after in zip([1, *levels], levels)):
                wrong(f"headings of {view}", "no level left out", levels)
    page.driver.execute_cdp_cmd("Emulation.setEmulatedMedia", {"features": []})


def long_design():
    """An EXP file of 999,998 commands: rows of 1,000 stitches to and fro."""
    rows = (struct.pack("bb", 0, 20) if k % 1000 == 999 else struct.pack("bb", 20 if k // 1000 % 2 else -20, 0) for k in range(999998))
    return b"".join(rows)


@in_chromium
def test_no_long_script(first):
    """No script of the page runs longer than 100 ms at a stretch, by the processor's time, also on the largest files."""
    page = Page(first.path, first.saved, (1280, 900), "devtools.timeline")
    try:
        load_large(page)
        longest = page.longest_scripts()
    finally:
        page.driver.quit()
    print("page: the longest scripts, in ms:", ", ".join(f"{name} {time:.0f}" for name, time in sorted(longest.items())))
    if not longest or max(longest.values()) > 100:
        wrong("scripts at a stretch", "at most 100 ms", longest)


def load_large(page):
    """Goes through the views with the largest files that they take."""
    chance = [(37 * k * k + 11 * k) % 90 for k in range(2000)]
    lines = "".join(f"line {100 * i + chance[i + j]} {100 * j} {100 * i + 100} {100 * j + chance[i * j % 2000]}\n" for i in range(31) for j in range(31))
    marks = "".join(f'<path id="p{k}" class="a b" d="M{k % 90} {k // 90}c1 2 3 4 5 6" fill="none" stroke="red"/>' for k in range(900))
    hidden = "".join(f'<g style="display:none"><path d="M{k} 0h1"/></g>' for k in range(9000))
    style = "<style>" + "".join(f".a{k} .b {{ fill: none }}\n" for k in range(300)) + "</style>"
    page.drop({"long.exp": long_design()})
    for view in ("Convert", "Play"):
        page.view(view)
        time.sleep(0.5)
    page.click("To the end")
    time.sleep(1)
    page.drop({"many.rw": ("redwork 2\ncolor 1\n" + lines).encode()})
    page.view("Drawing")
    page.view("Design")
    page.drop({"large.svg": (SVG % (style + marks + hidden)).encode()})
    page.settle()
    time.sleep(0.5)
