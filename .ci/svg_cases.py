"""Tests from_svg.py in one process: rows of documents with the drawings that were worked out by hand, and spoiled files."""
import math
import os
import random
import re
import shutil
import signal
import subprocess
import sys
import traceback

HOME, FOLDER = os.path.dirname(os.path.dirname(os.path.abspath(__file__))), sys.argv[1]
sys.path.insert(0, os.path.join(HOME, "examples"))
import from_svg  # noqa: E402
from stitch.svg import drawing, style  # noqa: E402

HEAD = ('<svg xmlns="http://www.w3.org/2000/svg" xmlns:xlink="http://www.w3.org/1999/xlink" '
        'xmlns:inkscape="http://www.inkscape.org/namespaces/inkscape" ')
PAGE = 'width="100mm" height="100mm" viewBox="0 0 100 100" stroke="black" fill="none">'
NAMES = ["bird", "name", "wreath", "quilt", "snail", "house"]
failed = 0
signal.signal(signal.SIGPROF, lambda *_: (_ for _ in ()).throw(AssertionError("longer than 10 seconds of a processor")))


def made(document, *options):
    """The status, the drawing's lines without comments, version and step, and the report."""
    source, target = os.path.join(FOLDER, "a.svg"), os.path.join(FOLDER, "a.rw")
    with open(source, "wb") as out:
        out.write(document if isinstance(document, bytes) else document.encode())
    if os.path.exists(target):
        os.remove(target)
    signal.setitimer(signal.ITIMER_PROF, 10)
    status, report = from_svg.run([source, target, *options])
    signal.setitimer(signal.ITIMER_PROF, 0)
    text = open(target).read() if os.path.exists(target) else ""
    if (status == 0) != (text != ""):
        wrong(document, "a file after a refusal, or none", status)
    lines = [line for line in text.splitlines() if not line.startswith(("#", "redwork", "step"))]
    return status, lines, [line.replace(f"from_svg.py: {source}: ", "") for line in report], text


def wrong(document, wanted, found):
    global failed
    failed += 1
    print(f"svg_cases: {document!r}\n  wanted {wanted!r}\n  found  {found!r}", file=sys.stderr)


def page(inside, head=PAGE):
    return f"{HEAD}{head}{inside}</svg>"


def draws(wanted, inside, head=PAGE, options=()):
    """Compares the lines of a drawing, each without its word; and `20` for `color 20` before all of them is left out."""
    status, lines, report, _ = made(page(inside, head), *options)
    found = [line.replace("line ", "") for line in lines]
    if status or (found[1:] if found[:1] == ["color 20"] else found) != wanted:
        wrong(inside, wanted, (status, found, report))


def reports(wanted, inside, head=PAGE, options=(), status=0):
    """Tests that a report has all of some lines, and its status."""
    found, _, report, _ = made(page(inside, head), *options)
    if found != status or not set(wanted) <= set(report):
        wrong(inside, (status, wanted), (found, report))


P = '<path id="p" d="M0,0 1,0"/>'
DEFS = f"<defs>{P}</defs>"
LEAF = '<symbol id="s" viewBox="0 0 10 10"><path id="q" d="M0,0 10,10"/></symbol>'

# shapes, in a document whose unit is a millimetre
for wanted, inside in (
        (["10 20 30 40"], '<path d="M1,2 3,4"/>'),
        (["10 20 30 40 30 60 10 20"], '<path d="m1 2 2 2v2z"/>'),
        (["0 0 50 0 50 50 0 0", "0 0 10 0"], '<path d="M0 0H5V5zl1 0"/>'),
        (["0 0 10 0", "20 0 30 0"], '<path d="M0 0h1M2 0h1"/>'),
        (["5 5 6 6 -10 -10"], '<path d="M.5.5.6.6-1-1"/>'),
        (["10 20 110 20 110 70 10 70 10 20"], '<rect x="1" y="2" width="10" height="5"/>'),
        (["10 20 30 40"], '<line x1="1" y1="2" x2="3" y2="4"/>'),
        (["10 20 30 40 50 50"], '<polyline points="1,2 3,4,5 5"/>'),
        (["10 20 30 40 50 50 10 20"], '<polygon points="1 2 3 4 5 5"/>'),
        (["0 0 100 0"], '<path d="M0 0A0 5 0 0 1 10 0"/>'),
        (["0 0 10 0"], '<path d="M0 0 0 0 1 0 1.001 0"/>'),
        (["10 10 20 10"], '<switch><foreignObject requiredExtensions="x"/><path d="M1 1h1"/><path d="M9 9h1"/></switch>'),
        (["10 10 20 10"], '<a><path d="M1 1h1"/></a><!-- c --><inkscape:grid/><symbol><path d="M9 9h1"/></symbol>'),
        # lengths: 1 in is 25.4 mm, 72 pt are 25.4 mm; in this document a px is a unit, as the viewBox says
        (["960 0 960 960"], '<line x1="1in" x2="72pt" y2="6pc"/>'),
        (["500 0 500 1000"], '<line x1="50%" x2="50%" y2="100%"/>'),
        # transforms: the one written first is the outer one
        (["100 10 100 20"], '<g transform="translate(10)"><path transform="rotate(90)" d="M1 0h1"/></g>'),
        (["60 40 80 40"], '<path transform="scale(2) translate(3,2)" d="M0 0h1"/>'),
        (["110 100 110 110"], '<path transform="rotate(90 10 10)" d="M10 9h1"/>'),
        # x + 3 y + 5 and 2 x + 4 y + 6 of 5 1 and of 6 1
        (["130 200 140 220"], '<path transform="matrix(1 2 3 4 5 6)" d="M5 1h1"/>'),
        (["20 10 30 20"], '<path transform="skewX(45)" d="M1 1 1 2"/>'),
        # clones: x and y after the transform
        (["40 60 60 60"], DEFS + '<use href="#p" x="2" y="3" transform="scale(2)"/>'),
        (["0 0 10 0", "10 0 20 0", "110 50 120 50"],
         P + '<g id="g"><use xlink:href="#p" x="1"/></g><use href="#g" y="5" transform="translate(10,0)"/>'),
        (["30 0 40 0", "70 0 80 0", "80 10 80 20"],
         DEFS + '<g id="g"><g id="h" transform="translate(1,0)"><use href="#p" x="2"/></g><use href="#h" x="4"/></g>'
         '<use id="k" href="#p" x="1" transform="translate(8,0) rotate(90)"/>'),
        # symbols: their viewBox is fitted to the width and the height of the clone
        (["200 100 250 150"], LEAF + '<use href="#s" x="20" y="10" width="5" height="5"/>'),
        (["250 100 350 200"], LEAF + '<use href="#s" x="20" y="10" width="20" height="10"/>'),
        (["200 100 400 200"], LEAF.replace("<symbol", '<symbol preserveAspectRatio="none"')
         + '<use href="#s" x="20" y="10" width="20" height="10"/>'),
        (["200 50 400 250"], LEAF.replace("<symbol", '<symbol preserveAspectRatio="xMidYMid slice"')
         + '<use href="#s" x="20" y="10" width="20" height="10"/>'),
        (["0 0 1000 1000"], LEAF + '<use href="#s"/>'),
        # a clone of a symbol in a symbol: the inner one is 5 of 10 units, which are 10 mm
        (["350 300 400 350"], LEAF + '<symbol id="o" viewBox="0 0 10 10"><use href="#s" x="5" width="5" height="5"/></symbol>'
         '<g transform="translate(10,10)"><use href="#o" x="20" y="20" width="10" height="10"/></g>'),
        (["200 100 250 150"], '<defs><svg id="s" viewBox="0 0 10 10"><path d="M0,0 10,10"/></svg></defs>'
         '<use href="#s" x="20" y="10" width="5" height="5"/>'),
        # an svg inside: 50 mm for 100 units, at 10 mm and 20 mm
        (["100 200 600 700"], '<svg x="10" y="20" width="50" height="50" viewBox="0 0 100 100"><path d="M0 0 100 100"/></svg>'),
        (["100 200 110 210"], '<svg x="10" y="20"><path d="M0 0 1 1"/></svg>'),
        (["0 0 250 250"], '<svg width="50%" height="50%" viewBox="0 0 10 10"><line x2="50%" y2="50%"/></svg>'),
        # style: a sheet over attributes, a class over a tag, an id over a class, the style over all but what is important
        (["color 29", "0 0 10 0"], '<style>.a{stroke:white}</style><path class="a" stroke="red" d="M0 0h1"/>'),
        (["0 0 10 0"], '<style>path{stroke:white}.a{stroke:black}</style><path class="b a" d="M0 0h1"/>'),
        (["0 0 10 0"], '<style>#p{stroke:black}.a,.b{stroke:white}</style><path id="p" class="a" d="M0 0h1"/>'),
        (["0 0 10 0"], '<style>#p{stroke:white}</style><path id="p" style="stroke:black" d="M0 0h1"/>'),
        (["color 29", "0 0 10 0"],
         '<style>.a{stroke:white!important}</style><path class="a" style="stroke:black" d="M0 0h1"/>'),
        (["0 0 10 0"], '<style>g g > .a{stroke:black}g > .a{stroke:white}</style><g><g><path class="a" d="M0 0h1"/></g></g>'),
        (["color 29", "0 0 10 0"],
         '<style>g g > .a{stroke:black}g .a{stroke:white}</style><g><path class="a" d="M0 0h1"/></g>'),
        (["0 0 10 0"], '<style>/* c */ @charset "x"; .b{stroke:white}</style><g class="b" stroke="red" style="stroke:black">'
         '<path stroke="inherit" d="M0 0h1"/></g>'),
        (["0 0 10 0"], '<g color="black"><path stroke="currentColor" d="M0 0h1"/></g>'),
        (["10 0 20 0"], '<g visibility="hidden"><path d="M0 0h1"/><path visibility="visible" d="M1 0h1"/></g>')):
    draws(wanted, inside)

# the size of the document: a unit is given by width and height; a part of no size is a px, and is reported
for wanted, head in (
        (["0 0 254 254"], 'width="1in" height="1in" viewBox="0 0 1 1">'),
        (["0 0 254 254"], 'width="72pt" viewBox="0 0 1 1">'),
        (["0 0 254 254"], 'height="96px" width="100%" viewBox="0 0 1 1">'),
        (["0 0 100 100"], 'width="1cm" height="1cm" viewBox="0 0 1 1">'),
        (["50 0 150 100"], 'width="2cm" height="1cm" viewBox="0 0 1 1">'),
        (["100 100 200 200"], 'width="1cm" height="1cm" viewBox="-1,-1,1,1">'),
        (["0 0 3 3"], 'width="100%" viewBox="0 0 5 5">'),
        (["0 0 3 3"], ">"),
        (["0 0 50 50"], 'width="100%" viewBox="0 0 5 5">')):
    draws(wanted, '<path stroke="black" fill="none" d="M0 0 1 1"/>', head, ["--width=50"] * (wanted[0][4:] == "50 50"))
NOTE = "size: not given, so a unit is a px of 1/96 inch; --width=N gives another"
reports([NOTE, "size 3 3 middle 1 1"], '<path stroke="black" d="M0 0 1 1"/>', 'width="100%" viewBox="0 0 5 5">')

# colours: one block for all spellings, in the order of their first lines, and the nearest thread
reports(["#ff0000 thread 5 Red", "#000000 thread 20 Black", "#a01818 thread 5 Red", "size 20 60 middle 10 30"],
        "".join(f'<path stroke="{colour}" d="M0 {k}h2"/>' for k, colour in enumerate(
            "#f00 black rgb(255,0,0) red #a01818 rgb(100%,0%,0%) hsl(0,100%,50%)".split())))
draws(["color 5", "0 0 20 0", "0 20 20 20", "color 20", "0 10 20 10"],
      '<path stroke="#f00" d="M0 0h2"/><path d="M0 1h2"/><path stroke="rgb(255 0 0 / 1)" d="M0 2h2"/>')
for number, thread in enumerate(drawing.THREADS, 1):
    if drawing.thread_of(bytes.fromhex(thread[:6]))[0] != number:
        wrong(thread, number, drawing.thread_of(bytes.fromhex(thread[:6])))

# hues go from red by yellow to green and blue: by the definition of CSS, with 255 for 1
for colour, wanted in (("hsl(120,100%,50%)", (0, 255, 0, 255)), ("hsl(240deg 100% 50% / 50%)", (0, 0, 255, 128)),
                       ("hsl(60,100%,30%)", (153, 153, 0, 255)), ("hsl(-60,100%,30%)", (153, 0, 153, 255)),
                       ("hsl(0,50%,75%)", (223, 159, 159, 255)), ("rgb(1,2,3)", (1, 2, 3, 255))):
    if style.colour_of(colour, None) != wanted:
        wrong(colour, wanted, style.colour_of(colour, None))
# the colours that SVG and the palette have by one name; beside them the nearest in a space of seen colour
for name, number in (
        ("black", 20), ("white", 29), ("red", 5), ("blue", 2), ("yellow", 13), ("orange", 12), ("silver", 16), ("gray", 39),
        ("magenta", 7), ("purple", 55), ("violet", 30), ("beige", 47), ("khaki", 35), ("lavender", 45), ("#fe0000", 28), ("#010101", 20)):
    draws([f"color {number}"][:number != 20] + ["0 0 10 0"], f'<path stroke="{name}" d="M0 0h1"/>')

# what is left out, and counted
LEFT = "".join((
    '<g style="display:none"><path d="M0 0h9"/><text>t</text><g><rect width="5" height="5"/></g></g>',
    '<path visibility="hidden" d="M0 0h9"/><use visibility="hidden" href="#none"/>',
    '<style>.off{display:none}.clear{opacity:0}</style><path class="off" d="M0 0h9"/>',
    '<g class="clear"><path d="M0 0h9"/><svg><path d="M0 0h9"/></svg></g><path stroke-opacity="0%" d="M0 0h9"/>',
    '<path stroke="#0000" d="M0 0h9"/><path stroke="rgba(0,0,0,0)" d="M0 0h9"/><path stroke="transparent" d="M0 0h9"/>',
    '<g stroke-opacity="0"><use href="#p"/></g><path style="stroke-width:0" d="M0 0h9"/>',
    '<path stroke="none" d="M0 0h9"/><line stroke="none" x2="4"/><path d="M3 3"/><path d=""/><path d="M5 5h0.01"/>',
    '<rect width="0" height="3"/><circle r="0"/><text> </text>'))
reports(["left out: 4 empty, 6 hidden, 8 transparent, 2 without a stroke, 1 of a single point", "size 10 0 middle 5 0"],
        P + LEFT)
reports(["nothing is drawn with a stroke; left out: 1 hidden"], '<path style="display:none" d="M0 0h9"/>', status=1)
reports(["nothing is drawn with a stroke"], "", status=1)

# what isn't a line is named, all of it; with --skip the rest is drawn
BAD = ('<text id="t">a</text><image id="i"/><g fill="red" stroke="none"><path id="f" d="M0 0h9v9"/></g>'
       '<use id="u" href="#gone"/><use id="v" href="other.svg#a"/>'
       '<path id="c" clip-path="url(#c)" d="M0 0h9"/><path id="k" stroke="url(#g)" d="M0 0h9"/>'
       '<path id="d" d="M0 0L5"/><g id="r"><use id="w" href="#r"/></g><path id="n" stroke="nosuch" d="M0 0h9"/>'
       '<path id="b" stroke="bad" d="M0 0h9"/>'
       '<path id="o" style="transform:scale(2)" d="M0 0h9"/><path id="m" transform="rotate(5" d="M0 0h9"/>'
       '<rect id="z" width="-1" height="1"/><line id="e" x1="3em"/>')
LIST = [
    "text 't': convert it to a path (Path > Object to Path), or draw its letters as lines",
    "image 'i': trace its lines (Path > Trace Bitmap), or delete it",
    "path 'f': it has a fill and no stroke: give it a stroke (Object > Fill and Stroke), or delete it",
    "use 'u': it is a clone of '#gone', which isn't in the file: delete it",
    "use 'v': it is a clone of 'other.svg#a', which isn't in the file: delete it",
    "path 'c': it is clipped or masked: release that (Object > Clip or Mask > Release)",
    "path 'k': colour 'url(#g)' can't be read: give it a flat colour (Object > Fill and Stroke)",
    "path 'd': its path can't be read at character 7, ''",
    "use 'w': it is a clone of '#r', which contains it: unlink it (Edit > Clone > Unlink Clone)",
    "path 'n': colour 'nosuch' can't be read: give it a flat colour (Object > Fill and Stroke)",
    "path 'b': colour 'bad' can't be read: give it a flat colour (Object > Fill and Stroke)",
    "path 'o': its style has 'transform', which isn't read: simplify it (Path > Simplify)",
    "path 'm': transform 'rotate(5' can't be read",
    "rect 'z': a negative size",
    "line 'e': x1 '3em' isn't a length in mm, cm, in, pt, px or %"]
reports(LIST, P + BAD, status=1)
reports(LIST[:1], '<text id="t">a</text>', options=["--skip"], status=1)
reports(["left out: " + line for line in LIST] + ["size 10 0 middle 5 0"], P + BAD, options=["--skip"])

# a clip that is a rectangle around all that it clips is passed over; another is refused, with all that is in it
CLIP = '<clipPath id="c"><rect x="1" y="1" width="8" height="4"/></clipPath>'
CUT = "it is clipped or masked: release that (Object > Clip or Mask > Release)"
LINE = '<path clip-path="url(#c)" d="M1 1 9 5"/>'
for inside in (
        CLIP + LINE, CLIP + '<g style="clip-path:url(#c)"><path d="M1 1 9 5"/></g>',
        # the clip has the units of what it clips, and may be written as a path, to its start or to its last corner
        '<clipPath id="c"><path d="M0 0H4V2H0z"/></clipPath>'
        '<g clip-path="url(#c)" transform="translate(1,1) scale(2)"><path d="M0 0 4 2"/></g>',
        '<clipPath id="c"><path d="M1 1 9 1 9 5 1 5"/></clipPath>' + LINE,
        '<clipPath id="c" transform="translate(1,1)"><rect width="8" height="4"/></clipPath>' + LINE,
        '<clipPath id="c"><rect x="1" y="-9" width="4" height="8" transform="rotate(90)"/></clipPath>' + LINE):
    draws(["10 10 90 50"], inside)
# a curve is within if it is, whatever its handles are: this one reaches y = 8
if made(page(CLIP.replace('"4"', '"7"') + '<path clip-path="url(#c)" d="M1 5C1 9 9 9 9 5"/>'))[0] != 0:
    wrong("a curve within its clip", 0, 1)
for inside in (
        '<path d="M1 1 9.1 5"/>', '<path d="M1 1 9 5.1"/>', '<path d="M0.9 1 9 5"/>', '<path d="M1 0.9 9 5"/>',
        '<path d="M1 1C9 9 9 9 9 5"/>'):
    reports([f"g 'g': {CUT}"], CLIP + f'<g id="g" clip-path="url(#c)"><path d="M2 2h1"/>{inside}</g>', status=1)
    draws(["50 60 60 60"], CLIP + f'<g id="g" clip-path="url(#c)"><path d="M2 2h1"/>{inside}</g><path d="M5 6h1"/>',
          options=["--skip"])
draws(["50 60 60 60"], CLIP + '<path d="M5 6h1"/><path clip-path="url(#c)" display="none" d="M0 0h99"/>')
for clip in ("<circle r='50'/>", "<rect width='9' height='9'/><rect width='9' height='9'/>", "<path d='M0 0H99V99'/>",
             "<path d='M0 0H99V99H1z'/>", "<rect width='99' height='99' rx='1'/>", "<text>a</text>", ""):
    reports([f"path 'p': {CUT}"], f"<clipPath id='c'>{clip}</clipPath>" + '<path id="p" clip-path="url(#c)" d="M1 1h1"/>',
            status=1)
reports([f"path 'p': {CUT}"], '<clipPath id="c" clipPathUnits="objectBoundingBox"><rect width="9" height="9"/></clipPath>'
        '<path id="p" clip-path="url(#c)" d="M1 1h1"/>', status=1)

# a rectangle around the page without a stroke is passed over, white or not
for around in ('<rect width="100" height="100" fill="white"', '<rect width="100%" height="100%" fill="#345"',
               '<rect x="-5" y="-5" width="110" height="120" fill="white"', '<path d="M100 0H0V100H100z" fill="red"'):
    reports(["left out: 1 as large as the page, without a stroke", "size 10 0 middle 15 10"],
            around + ' stroke="none"/><path d="M1 1h1"/>')
for sides in ('width="99" height="100"', 'width="100" height="99"', 'x="1" width="100" height="100"', 'y="1" width="100" height="100"'):
    reports(["rect 'r': it has a fill and no stroke: give it a stroke (Object > Fill and Stroke), or delete it"],
            f'<rect id="r" {sides} fill="white" stroke="none"/>', status=1)

# Illustrator's px is 1/72 inch, where the file says that it wrote it and gives no other unit: 72 px are 25.4 mm
WROTE, NOTE = "<!-- Generator: Adobe Illustrator 24.0 -->", "size: Illustrator wrote the file, so a px is 1/72 inch; --width=N gives another"
ILLUSTRATORS = (f'<?xml version="1.0"?>{WROTE}<!DOCTYPE svg [<!ENTITY ns_ai "http://ns.adobe.com/AdobeIllustrator/10.0/">]>'
                '<svg xmlns="http://www.w3.org/2000/svg" xmlns:i="&ns_ai;" ')
for size, long in (('width="144px" height="144px"', 254), ("", 254), ('width="100%"', 254), ('width="144mm" height="144mm"', 720)):
    for head in (ILLUSTRATORS, ILLUSTRATORS.replace(WROTE, ""), ILLUSTRATORS.replace("AdobeIllustrator", "")):
        _, found, report, _ = made(f'{head}{size} viewBox="0 0 144 144"><path stroke="black" d="M0 0h72"/></svg>')
        if found[1:] != [f"line 0 0 {long} 0"] or (NOTE in report) != (long == 254):
            wrong(size, long, (found, report))
draws(["0 0 191 0"], "<!-- Adobe Illustrator --><path d='M0 0h72'/>", head='stroke="black" viewBox="0 0 9 9">')

# of what potrace wrote, the areas are outlines
reports(["path 'p': it is the outline of a traced area: trace its centre line (Path > Trace Bitmap, Centerline), or delete it"],
        '<metadata>Created by potrace 1.16</metadata><path id="p" fill="black" stroke="none" d="M0 0h1v1z"/>', status=1)

# faults of a whole file, each in one line
for wanted, document in (
        ("not XML: no element found: line 1, column 0", ""),
        ("not XML: mismatched tag: line 1, column 10", "<svg><g></svg>"),
        ("not an SVG file", "<html/>"),
        ("not XML: not well-formed (invalid token): line 1, column 0", b"\x1f\x8b\x08\x00"),
        ("svg 'without id': viewBox '0 0 0 10' isn't four numbers with a width and a height", page(P, 'viewBox="0 0 0 10">')),
        ("svg 'without id': viewBox '0 0 10' isn't four numbers with a width and a height", page(P, 'viewBox="0 0 10">')),
        ("svg 'without id': viewBox 'a b c d' isn't four numbers with a width and a height", page(P, 'viewBox="a b c d">')),
        ("svg 'without id': its width or height isn't greater than 0", page(P, 'width="0" height="5" viewBox="0 0 5 5">')),
        ("svg 'without id': width 'NaN' isn't a length in mm, cm, in, pt, px or %", page(P, 'width="NaN" viewBox="0 0 5 5">')),
        ("path 'a': its path can't be read at character 3, 'NaN,0 1'", page('<path id="a" d="M NaN,0 1"/>', PAGE)),
        ("path 'a': its numbers are too large", page('<path id="a" d="M 1e999,0 1,1"/>', PAGE)),
        ("line 'a': x2 '5%' is a part of a size that isn't given: set width and height of the document",
         page('<line id="a" x2="5%" stroke="red"/>', ">")),
        ("style sheet: it can't be read: use plain rules without @media and @import",
         page("<style>@media print { a { b: c } }</style>", PAGE)),
        ("style sheet: selector 'a[b]' can't be read: use classes and ids", page("<style>a[b] { b: c }</style>", PAGE)),
        ("more than 20000 elements with those of clones: unlink or delete some", page(P.replace('"p"', '"u0"') + "".join(
            f'<g id="u{k}">' + f'<use href="#u{k - 1}"/>' * 10 + "</g>" for k in range(1, 9)), PAGE)),
        ("it is too large, or has too many groups in groups: divide or ungroup it",
         page("<g>" * 5000 + P + "</g>" * 5000, PAGE)),
        # limits
        ("1025 lines: join their ends (Node > Join), or divide the drawing; a drawing has at most 1024",
         page('<path d="' + "M0 0h1" * 1025 + '"/>', PAGE)),
        ("256 colours: give lines the same one; a drawing has at most 255",
         page("".join(f'<path stroke="#{k:06x}" d="M0 0h1"/>' for k in range(256)), PAGE)),
        ("30010 tenths of a millimetre from 0 0: take --centre, or --width=N; a drawing has at most 30000",
         page('<path d="M3000 0h1"/>', PAGE)),
        ("the drawing is 60010 tenths of a millimetre large, more than 60000: scale it in the editor, or take --width=N",
         page('<path d="M0 0h6001"/>', PAGE)),
        ("more than 65536 points: divide the drawing", page('<path d="M0 0' + "h1v1h-1v-1" * 17000 + '"/>', PAGE)),
        # 40 curves whose handles are 12,000 mm long on the whole: 40 * (4472.1 + 2828.4 + 4338.2) / 65536 = 7.103
        ("more than 65536 points: take --apart=7.2 or more, or divide the drawing",
         page('<path d="' + "M0 0C2000 4000 4000 2000 5900 5900" * 40 + '"/>', PAGE)),
        ("more than 131072 parts of paths: simplify them (Path > Simplify), or divide the drawing",
         page('<path d="M0 0' + "h1h-1" * 250000 + '"/>', PAGE)),
        ("240000 steps: take a longer STEP, or divide the drawing; a drawing has at most 200000",
         page('<path d="M0 0' + "h1000h-1000" * 300 + '"/>', PAGE)),
        ("1026 lines, counted from meeting to meeting: divide the drawing; a drawing has at most 1024",
         page('<path d="M0 0' + "h1h-1" * 513 + '"/>', PAGE))):
    status, _, report, _ = made(document)
    if (status, report[:1]) != (1, [wanted]):
        wrong(document[:300], wanted, (status, report[:3]))

# title and labels, as comments before their lines; centre and width
text = made(page('<title>Vögel am  Teich, groß</title>'
                 '<g inkscape:label="no"><path id="a" inkscape:label="left wing" d="M1 1h1"/></g>'
                 '<path id="b" d="M2 2h1M3 3h1"/><use id="u" href="#b"/><use href="#b"/>'))[3]
wanted = ("redwork 2\nname Vogel-am-Teich,\nstep 25\n# #000000 thread 20 Black\ncolor 20\n# left wing\nline 10 10 20 10\n"
          + "".join(f"# {label}\nline 20 20 30 20\nline 30 30 40 30\n" for label in ("b", "u/b", "b")))
if text != wanted:
    wrong("title and labels", wanted, text)
draws(["-10 -5 10 -5 10 5"], '<path d="M3 3h2v1"/>', options=["--centre"])
draws(["30 30 130 30 130 80"], '<path d="M3 3h2v1"/>', options=["--width=100"])
draws(["-50 -25 50 -25 50 25"], '<path d="M3 3h2v1"/>', options=["--width=100", "--centre"])
reports(["size 777 777 middle 0 0"], '<circle cx="9" cy="7" r="3" transform="rotate(20)"/>',
        options=["--width=777", "--centre"])

# curves: 0.1 mm and 0.5 mm, or as requested, by points of the true curve
for within, apart in ((0.1, 0.5), (0.08, 0.3), (0.3, 2.5)):
    for inside, true in (
            ('<circle cx="50" cy="40" r="20"/>', lambda t: (50 + 20 * math.cos(t), 40 + 20 * math.sin(t))),
            ('<ellipse cx="50" cy="40" rx="20" ry="3"/>', lambda t: (50 + 20 * math.cos(t), 40 + 3 * math.sin(t))),
            ('<path d="M50 0A10 10 0 1 1 30 0 10 10 0 0 1 50 0" transform="skewX(45)"/>',
             lambda t: (40 + 10 * math.cos(t) + 10 * math.sin(t), 10 * math.sin(t))),
            ('<path d="M0 0Q50 100 90 0"/>',
             lambda t: ((100 * (1 - t / math.tau) + 90 * t / math.tau) * t / math.tau,
                        200 * t / math.tau * (1 - t / math.tau)))):
        _, lines, report, _ = made(page(inside), f"--within={within}", f"--apart={apart}")
        numbers = [int(word) for word in lines[1].split()[1:]]
        points = [complex(x, y) for x, y in zip(numbers[::2], numbers[1::2])]
        far = max(min(drawing.beside(10 * complex(*true(math.tau * k / 399)), a, b) for a, b in zip(points, points[1:]))
                  for k in range(400))
        gap = max(abs(b - a) for a, b in zip(points, points[1:]))
        if far > 10 * within or gap > 10 * apart:
            wrong(inside, (within, apart), (far, gap))

# the drawings of the repository have the lines that are made of their pictures
for name in ("house", "fern", "knot"):
    wanted = [line for line in open(os.path.join(HOME, "examples", name + ".rw")).read().splitlines() if line[:4] == "line"]
    found = made(open(os.path.join(HOME, "examples", name + ".svg"), "rb").read())[1]
    if wanted != [line for line in found if line[:4] == "line"]:
        wrong(name, wanted, found)

# arguments
for words, wanted in (
        ("", "it takes two names: IN.svg and OUT.rw"), ("a", "it takes two names: IN.svg and OUT.rw"),
        ("a b", "b: the name of a drawing ends in .rw"), ("a b.pes", "b.pes: the name of a drawing ends in .rw"),
        ("a b.rw c", "c: it is neither a STEP nor an option"), ("a b.rw 0", "--step=0: it isn't from 1 to 2047"),
        ("a b.rw 2048", "--step=2048: it isn't from 1 to 2047"), ("a b.rw --step=2.5", "--step=2.5: it isn't a whole number"),
        ("a b.rw --within=0.01", "--within=0.01: it isn't from 0.08 to 10"),
        ("a b.rw --apart=0", "--apart=0: it isn't from 0.3 to 10"),
        ("a b.rw --apart", "--apart=: it isn't a number"), ("a b.rw --apart 11", "--apart=11: it isn't from 0.3 to 10"),
        ("a b.rw --width=0", "--width=0: it isn't from 1 to 60000"),
        ("a b.rw --width=7m", "--width=7m: it isn't a whole number, or one of mm, cm or in"),
        ("a b.rw --none", "--none: there is no such option"), ("a b.rw 5 d", "d: it is neither a STEP nor an option"),
        ("a b.rw --centre=1", "--centre: there is no such option")):
    status, report = from_svg.run(words.split())
    if status != 2 or report[0] != f"from_svg.py: {wanted}" or "usage: " not in report[1]:
        wrong(words, wanted, report)
for words, wanted in (("--width=80mm", "size 800 800 middle 400 400"), ("--width=8cm", "size 800 800 middle 400 400"),
                      ("--width 2in", "size 508 508 middle 254 254"), ("--width=80.5mm", "size 805 805 middle 402 402"),
                      ("--apart 1mm --width=30", "size 30 30 middle 15 15")):
    reports([wanted], '<path d="M0 0 1 1"/>', options=words.split())
if [line for line in made(page('<path d="M0 0h1"/>'), "--step=7")[3].splitlines() if line.startswith("step")] != ["step 7"]:
    wrong("--step=7", "step 7", None)


def ends():
    """Ends the tests, with status 1 if one failed."""
    print(f"svg: {failed} failed")
    sys.exit(failed > 0)


# what takes long isn't tested once a case has failed
if failed:
    ends()


def spoiled(text, chance):
    """A document with one to four faults."""
    for _ in range(chance.randint(1, 4)):
        kind, at = chance.randrange(6), chance.randrange(len(text) or 1)
        tags, values = list(re.finditer(r"<[^<>]*>", text)), list(re.finditer(r'([\w:-]+)="([^"]*)"', text))
        numbers = list(re.finditer(style.NUMBER, text))
        if kind == 0:
            text = text[:at] + chr(chance.randrange(1, 300)) + text[at + 1:]
        elif kind == 1 and tags:
            tag = chance.choice(tags)
            text = text[:tag.start()] + text[tag.end():]
        elif kind == 2 and numbers:
            one = chance.choice(numbers)
            text = text[:one.start()] + chance.choice(NONSENSE) + text[one.end():]
        elif kind == 3 and values:
            one, other = chance.choice(values), chance.choice(values)
            text = text[:one.start(2)] + other.group(2) + text[one.end(2):]
        elif kind == 4 and values:
            one, other = chance.choice(values), chance.choice(values)
            text = text[:one.start(1)] + other.group(1) + text[one.end(1):]
        elif kind == 5 and tags:
            tag, other = chance.choice(tags), chance.choice(tags)
            text = text[:tag.start()] + other.group() + text[tag.end():]
    return text


NONSENSE = ["0", "-1", "NaN", "inf", "1e999", "-1e300", "1e-300", "100%", "-5%", "%", "", "1e5", "99999999", "#", "url(#a)",
            "none", "0 0 0 0", "calc(1px)", "3em", "M", "z", "\u0660", "1.2.3", "--4", "+", "e", "rotate(", "inherit"]
patterns = [open(os.path.join(HOME, "examples", name + ".svg"), encoding="utf-8").read() for name in NAMES]
patterns += [page(P + LEFT + BAD), page(DEFS + LEAF + '<use href="#s" x="20%" width="20" height="10"/>'
                                         '<svg viewBox="0 0 5 5">' + P
                                         + '</svg><style>g > .a{stroke:red}</style><g class="a"><use href="#p"/></g>')]
chance, statuses = random.Random(20261130), {}
for count in range(2000):
    document = spoiled(patterns[count % len(patterns)], chance)
    try:
        status, _, report, _ = made(document.encode("utf-8", "replace"), *(["--skip"] if count % 3 == 0 else []))
        statuses[status] = statuses.get(status, 0) + 1
        if status not in (0, 1) or any("\n" in line for line in report):
            wrong(document, "a status", (status, report))
    except Exception:
        signal.setitimer(signal.ITIMER_PROF, 0)
        wrong(document, "no exception", traceback.format_exc())


def same(one, other):
    """Whether all points of a drawing are within 0.1 mm of the lines of another in the same thread."""
    def lines(text):
        thread = ""
        for line in text.splitlines():
            words = line.split()
            if words[0] == "color":
                thread = words[1]
            elif words[0] == "line":
                yield thread, [complex(int(x), int(y)) for x, y in zip(words[1::2], words[2::2])]
    other = list(lines(other))
    return all(min((drawing.beside(point, a, b) for t, line in other if t == thread for a, b in zip(line, line[1:])),
                   default=9) <= 1 for thread, points in lines(one) for point in points)


# the patterns as Inkscape saves them, plain, and with its clones unlinked and all shapes made paths
for name in ["bird", "quilt"] if shutil.which("inkscape") else []:
    drawn = made(open(os.path.join(HOME, "examples", name + ".svg"), "rb").read())[3]
    for actions in ("export-plain-svg", "select-all:all;clone-unlink-recursively;select-all:no-groups;object-to-path"):
        saved = os.path.join(FOLDER, "saved.svg")
        subprocess.run(["inkscape", f"--actions={actions};export-filename:{saved};export-do",
                        os.path.join(HOME, "examples", name + ".svg")], capture_output=True, timeout=300)
        again = made(open(saved, "rb").read())[3]
        if not (same(drawn, again) and same(again, drawn)):
            wrong(name, "the same drawing after " + actions, again)

print(f"svg: of 2000 spoiled files {statuses.get(0, 0)} were drawn")
ends()
