"""The visible strokes of an SVG file: their colours, and their lines in tenths of a millimetre.

Paths, arcs, transforms and the names of colours are read by a library: by_svgelements.py, or svg_by_inkex.py in Inkscape.
A library passes over what it can't read, so the syntax is checked before. The walk over a document of svgelements draws
symbols that nothing refers to and passes over their viewBox, so the elements are walked over here.
"""
import math
import re
import unicodedata
from collections import Counter
from typing import NamedTuple

from .geometry import CLIPPED, PX, Matrix, is_within, moved_lines, sides_of
from .style import INHERITED, NUMBER, Refused, is_clear, is_illustrators, kind_of, number, painted, style_of, style_rules

XLINK = "{http://www.w3.org/1999/xlink}"
LABEL = "{http://www.inkscape.org/namespaces/inkscape}label"
# Lengths of a unit in px, of which 96 are an inch.
UNITS = {"": 1, "px": 1, "mm": 96 / 25.4, "cm": 96 / 2.54, "in": 96, "pt": 4 / 3, "pc": 16, "q": 96 / 101.6}
# Elements that draw nothing where they stand.
PASSED = set("defs symbol clipPath mask marker pattern linearGradient radialGradient meshgradient filter metadata title desc"
             " style script font animate animateTransform animateMotion set view cursor solidcolor color-profile".split())
GROUPS, TEXTS = {"svg", "g", "a", "switch", "symbol"}, {"text", "flowRoot", "foreignObject"}
SHAPES = {"path", "rect", "circle", "ellipse", "line", "polyline", "polygon"}
# The lengths of shapes: a percentage is of the width (x), of the height (y), or of the mean of both (r).
LENGTHS = {kind: dict(pair.split(":") for pair in pairs.split()) for kind, pairs in {
    "rect": "x:x y:y width:x height:y rx:x ry:y", "circle": "cx:x cy:y r:r", "ellipse": "cx:x cy:y rx:x ry:y",
    "line": "x1:x y1:y x2:x y2:y"}.items()}
TRANSFORMS = {"matrix": (6,), "translate": (1, 2), "scale": (1, 2), "rotate": (1, 3), "skewX": (1,), "skewY": (1,)}
# The numbers (n) and flags (f) after each letter of a path.
COMMANDS = {"m": "nn", "z": "", "l": "nn", "h": "n", "v": "n", "c": "nnnnnn", "s": "nnnn", "q": "nnnn", "t": "nn",
            "a": "nnnffnn"}
# The ids of the layers that the extension of Inkscape shows results on.
SHOWN = {"redwork-look", "redwork-route"}
# The greatest number of elements, each counted as often as it is cloned, and of the parts of their paths.
ELEMENTS, PARTS = 20000, 131072


# What is said of areas, of which those of a traced picture are outlines of lines.
FILLED = "it has a fill and no stroke: give it a stroke (Object > Fill and Stroke), or delete it"
OUTLINE = "it is the outline of a traced area: trace its centre line (Path > Trace Bitmap, Centerline), or delete it"
# What is refused of an element with a clip that cuts something off, or with a mask.
CUT = "it is clipped or masked: release that (Object > Clip or Mask > Release)"


class TooMuch(Exception):
    """What no drawing could hold."""


class Place(NamedTuple):
    """What an element takes from those around it. Lengths are px, but for the size, which is in the element's own units."""
    matrix: object
    style: dict
    size: tuple = (None, None)
    left_out: str = ""
    uses: tuple = ()
    labels: tuple = ()
    clip: object = None


def plain(text):
    """A text as printable ASCII with single spaces."""
    text = unicodedata.normalize("NFKD", text).encode("ascii", "ignore").decode()
    return " ".join("".join(c if " " <= c <= "~" else " " for c in text).split())


def length(element, name, default, whole):
    """A length of an element in its own units; a percentage is of `whole`, which is None where it isn't known."""
    text = element.get(name, default)
    found = re.fullmatch(rf"\s*({NUMBER})\s*([a-zA-Z]*|%)\s*", text)
    if not found or found[2].lower() not in UNITS and found[2] != "%":
        raise Refused(f"{name} {text!r} isn't a length in mm, cm, in, pt, px or %")
    if found[2] == "%" and whole is None:
        raise Refused(f"{name} {text!r} is a part of a size that isn't given: set width and height of the document")
    found = float(found[1]) * (whole / 100 if found[2] == "%" else UNITS[found[2].lower()])
    if not abs(found) < 1e9:
        raise Refused("its numbers are too large")
    return found


def transform_of(text, library):
    """The matrix of a transform, whose first call is the outermost."""
    matrix = Matrix()
    for call in re.split(r"(?<=\))[\s,]*", text.strip()):
        found = re.fullmatch(r"([a-zA-Z]+)\s*\(([^()%]*)\)", call)
        numbers = [number(word) for word in re.split(r"\s*,\s*|\s+", found[2].strip())] if found else []
        if call and (not found or len(numbers) not in TRANSFORMS.get(found[1], ()) or None in numbers):
            raise Refused(f"transform {call!r} can't be read")
        matrix = Matrix(*library.matrix_of(f"{found[1]}({','.join(map(repr, numbers))})")).then(matrix) if call else matrix
    return matrix


def view_box(element):
    """The numbers of a viewBox, or None."""
    words = element.get("viewBox", "").replace(",", " ").split()
    if not words:
        return None
    box = [number(word) for word in words if "%" not in word]
    if len(box) != 4 or None in box or min(box[2:]) <= 0:
        raise Refused(f"viewBox {element.get('viewBox')!r} isn't four numbers with a width and a height")
    return box


def fitted(element, x, y, width, height, box):
    """The matrix that brings a viewBox into a rectangle."""
    aspect = re.fullmatch(r"\s*(none|x(M..)Y(M..))(?:\s+(meet|slice))?\s*", element.get("preserveAspectRatio", ""))
    form, across, down, by = aspect.groups() if aspect else ("", "Mid", "Mid", "meet")
    right, low = width / box[2], height / box[3]
    if form != "none":
        right = low = max(right, low) if by == "slice" else min(right, low)
    part = {"Min": 0, "Max": 1}
    return Matrix(right, 0, 0, low, x - box[0] * right + part.get(across, 0.5) * (width - box[2] * right),
                  y - box[1] * low + part.get(down, 0.5) * (height - box[3] * low))


def checked_path(text):
    """The number of a path's parts, and its text with a space between all letters and numbers. A fault is refused."""
    at, kind, parts, words = 0, "", 0, {"n": re.compile(NUMBER), "f": re.compile("[01]")}
    gap, made = re.compile("[ \t\r\n\f,]*"), []
    while (at := gap.match(text, at).end()) < len(text):
        if text[at] in "mzlhvcsqtaMZLHVCSQTA":
            made.append(text[at])
            kind, at = text[at].lower(), at + 1
        elif kind == "z":
            kind = ""
        for form in COMMANDS.get(kind if parts or kind == "m" else "", "?"):
            at = gap.match(text, at).end()
            found = form != "?" and words[form].match(text, at)
            if not found:
                raise Refused(f"its path can't be read at character {at + 1}, {text[at:at + 12]!r}")
            made.append(found[0])
            at = found.end()
        parts += 1
    return parts, " ".join(made)


def rectangle(x, y, width, height, rx, ry):
    """The path of a rectangle; a radius that isn't given is None."""
    rx, ry = min((ry if rx is None else rx) or 0, width / 2), min((rx if ry is None else ry) or 0, height / 2)
    if min(width, height, rx, ry) < 0:
        raise Refused("a negative size")
    if not width or not height:
        return ""
    right, low = x + width, y + height
    if not rx or not ry:
        return f"M{x!r},{y!r} H{right!r} V{low!r} H{x!r} z"
    arc = f"A{rx!r},{ry!r} 0 0 1"
    return (f"M{x + rx!r},{y!r} H{right - rx!r} {arc} {right!r},{y + ry!r} V{low - ry!r} {arc} {right - rx!r},{low!r} "
            f"H{x + rx!r} {arc} {x!r},{low - ry!r} V{y + ry!r} {arc} {x + rx!r},{y!r} z")


def ellipse(x, y, rx, ry):
    """The path of an ellipse."""
    if min(rx, ry) < 0:
        raise Refused("a negative radius")
    ends = ((x, y + ry), (x - rx, y), (x, y - ry), (x + rx, y))
    return f"M{x + rx!r},{y!r} " + "".join(f"A{rx!r},{ry!r} 0 0 1 {a!r},{b!r} " for a, b in ends) + "z" if rx and ry else ""


def shape_path(kind, element, size):
    """The path of a shape, in its own units."""
    whole = dict(zip("xy", size), r=None if None in size else math.hypot(*size) / math.sqrt(2))
    at = {name: None if kind == "rect" and element.get(name, "auto" if name[0] == "r" else "0").strip() == "auto"
          else length(element, name, "0", whole[axis]) for name, axis in LENGTHS.get(kind, {}).items()}
    if kind == "rect":
        return rectangle(*at.values())
    if kind in ("circle", "ellipse"):
        return ellipse(at["cx"], at["cy"], at.get("r", at.get("rx")), at.get("r", at.get("ry")))
    if kind == "line":
        return f"M{at['x1']!r},{at['y1']!r} {at['x2']!r},{at['y2']!r}"
    points = element.get("points", "").strip()
    return element.get("d", "") if kind == "path" else f"M{points}{'z' * (kind == 'polygon')}" if points else ""


class Reader:
    """Collects the lines of a document's visible strokes by colour, counts what is left out, and lists what isn't a line."""

    def __init__(self, root, text, library):
        self.by_id, self.parents = {}, {child: element for element in root.iter() for child in element}
        for element in root.iter():
            self.by_id.setdefault(element.get("id"), element)
        self.rules, self.faults, self.left_out, self.visits, self.parts = style_rules(root), [], Counter(), 0, 0
        self.blocks, self.notes, self.library, self.page = {}, [], library, Matrix()
        notes = ("".join(element.itertext()) for element in root.iter() if kind_of(element) == "metadata")
        self.sides, self.is_traced = None, any("potrace" in note for note in notes)
        units = root.get("width", "") + root.get("height", "")
        in_points = is_illustrators(text) and not re.search("mm|cm|in|p[tc]|q", units.lower())
        if in_points:
            self.notes.append("size: Illustrator wrote the file, so a px is 1/72 inch; --width=N gives another")
        self.visit(root, Place(Matrix(96 / 72, 0, 0, 96 / 72) if in_points else Matrix(), dict(INHERITED)))

    def visit(self, element, place, clone=None):
        """Reads an element and all that is in it. A clone is the `use` that refers to the element."""
        kind = kind_of(element)
        self.visits += 1
        if self.visits > ELEMENTS:
            raise TooMuch(f"more than {ELEMENTS} elements with those of clones: unlink or delete some")
        if not kind or element.get("id") in SHOWN or kind in PASSED and not (kind == "symbol" and clone is not None):
            return
        try:
            place = self.inside(kind, element, place, clone)
            drawn = {colour: len(lines) for colour, lines in self.blocks.items()} if place.clip else {}
            if kind in GROUPS:
                children = [child for child in element if kind_of(child) and not (
                    kind == "switch" and (child.get("requiredExtensions") or child.get("systemLanguage")))]
                for child in children[:1] if kind == "switch" else children:
                    self.visit(child, place._replace(clip=None))
            elif place.left_out or place.style["visibility"] in ("hidden", "collapse"):
                self.left_out[place.left_out or "hidden"] += 1
            else:
                self.visit_leaf(kind, element, place)
            if place.clip:
                self.check_clip(place.clip, drawn)
        except Refused as why:
            self.faults.append(f"{kind} {element.get('id', 'without id')!r}: {why}")
        except (ArithmeticError, ValueError):
            self.faults.append(f"{kind} {element.get('id', 'without id')!r}: its numbers are too large")

    def check_clip(self, clip, drawn):
        """Refuses an element that its clip cuts, without the lines that were drawn of it: those after the first ones."""
        lines = [line for colour, block in self.blocks.items() for _, line in block[drawn.get(colour, 0):]]
        if not all(is_within(line, clip) for line in lines):
            for colour, block in self.blocks.items():
                del block[drawn.get(colour, 0):]
            raise Refused(CUT)

    def visit_leaf(self, kind, element, place):
        """Reads an element that isn't a group, and is visible."""
        if kind == "use":
            self.visit_clone(element, place)
        elif kind in SHAPES:
            self.draw(kind, element, place)
        elif kind == "image":
            raise Refused("trace its lines (Path > Trace Bitmap), or delete it")
        elif kind not in TEXTS:
            raise Refused("it isn't a line: convert it to a path (Path > Object to Path), or delete it")
        elif "".join(element.itertext()).strip():
            raise Refused("convert it to a path (Path > Object to Path), or draw its letters as lines")

    def inside(self, kind, element, place, clone):
        """The place of an element's own shape, or of the elements in it."""
        style = style_of(element, place.style, self.rules, self.parents)
        left_out = "hidden" if style["display"] == "none" else "transparent" if is_clear(style["opacity"]) else ""
        if place.left_out or left_out:
            return place._replace(style=style, left_out=place.left_out or left_out)
        if style["moves"]:
            raise Refused(f"its style has {style['moves']!r}, which isn't read: simplify it (Path > Simplify)")
        if style["mask"] != "none":
            raise Refused(CUT)
        matrix = transform_of(element.get("transform", ""), self.library).then(place.matrix)
        clip = None if style["clip-path"] == "none" else self.clip_of(style["clip-path"], matrix, place.size)
        label = element.get(LABEL) or element.get("id")
        labels = place.labels + ((label,) if label and kind in SHAPES | {"use"} else ())
        place = place._replace(matrix=matrix, style=style, labels=labels, clip=clip)
        return self.viewport(element, place, clone) if kind in ("svg", "symbol") else place

    def clip_of(self, text, matrix, size):
        """The matrix and the sides of a clip that is one rectangle. Another is refused."""
        found = re.fullmatch(r"""url\(\s*["']?#([^"')]*)["']?\s*\)""", text)
        around = self.by_id.get(found[1]) if found else None
        shapes = [] if around is None else [child for child in around if kind_of(child) and kind_of(child) not in PASSED]
        if len(shapes) != 1 or kind_of(shapes[0]) not in SHAPES or around.get("clipPathUnits") == "objectBoundingBox" or any(
                style_of(one, INHERITED, self.rules, self.parents)["clip-path"] != "none" for one in (around, *shapes)):
            raise Refused(CUT)
        for one in (around, *shapes):
            matrix = transform_of(one.get("transform", ""), self.library).then(matrix)
        sides = sides_of(self.lines_of(kind_of(shapes[0]), shapes[0], size))
        if not sides:
            raise Refused(CUT)
        return matrix, sides

    def page_size(self, asked, box):
        """The size of which the document's percentages are, in px. One side alone gives the other by the viewBox."""
        given = [name for name in asked if "%" not in asked[name]]
        if not box:
            return None, None
        if not given and not self.notes:
            self.notes.append("size: not given, so a unit is a px of 1/96 inch; --width=N gives another")
        rate = 1
        if len(given) == 1:
            rate = length(asked, given[0], "", None) / box[2 if given == ["width"] else 3]
            asked.update({name: "100%" for name in asked if name not in given})
        return rate * box[2], rate * box[3]

    def viewport(self, element, place, clone):
        """The place inside the document, an `svg` in it or a symbol, whose sides a clone may give."""
        box, outer = view_box(element), element not in self.parents
        asked = {name: element.get(name, "100%").strip() for name in ("width", "height")}
        asked.update({name: clone.get(name).strip() for name in asked if clone is not None and clone.get(name)})
        asked = {name: "100%" if text == "auto" else text for name, text in asked.items()}
        whole = self.page_size(asked, box) if outer else place.size
        x, y = (0, 0) if outer else (length(element, name, "0", part) for name, part in zip("xy", whole))
        sides = [None if part is None and "%" in asked[name] else length(asked, name, "", part)
                 for name, part in zip(asked, whole)]
        if any(side is not None and side <= 0 for side in sides):
            raise Refused("its width or height isn't greater than 0")
        if not box:
            return place._replace(matrix=Matrix(e=x, f=y).then(place.matrix), size=tuple(sides))
        if None in sides:
            raise Refused("its size is a part of one that isn't given: set width and height of the document")
        place = place._replace(matrix=fitted(element, x, y, *sides, box).then(place.matrix), size=tuple(box[2:]))
        self.page, self.sides = (place.matrix, box) if outer else (self.page, self.sides)
        return place

    def visit_clone(self, element, place):
        """Reads what a `use` refers to, at its place."""
        name = element.get("href", element.get(XLINK + "href", "")).strip()
        target = self.by_id.get(name[1:]) if name[:1] == "#" and name[1:] else None
        if target is None:
            raise Refused(f"it is a clone of {name!r}, which isn't in the file: delete it")
        if target in place.uses:
            raise Refused(f"it is a clone of {name!r}, which contains it: unlink it (Edit > Clone > Unlink Clone)")
        x, y = (length(element, axis, "0", whole) for axis, whole in zip("xy", place.size))
        place = place._replace(matrix=Matrix(e=x, f=y).then(place.matrix), uses=place.uses + (target,))
        self.visit(target, place, element)

    def lines_of(self, kind, element, size):
        """The lines of a shape in its own units: lists of pieces, each two points, or the four of a cubic curve."""
        wanted, text = checked_path(shape_path(kind, element, size))
        self.parts += wanted
        if self.parts > PARTS:
            raise TooMuch(f"more than {PARTS} parts of paths: simplify them (Path > Simplify), or divide the drawing")
        parts, lines = self.library.lines_of(text)
        if parts != wanted:
            raise Refused("its path can't be read: simplify it (Path > Simplify)")
        return lines

    def is_background(self, lines, matrix):
        """Whether lines in the units of a matrix are a rectangle around the page."""
        sides = sides_of(moved_lines(matrix, lines))
        if not sides or not self.sides:
            return False
        x, y, width, height = self.sides
        (left, upper), (right, lower) = (self.page.of(*corner) for corner in ((x, y), (x + width, y + height)))
        return (sides[0] / PX - CLIPPED <= left and sides[1] / PX - CLIPPED <= upper
                and right <= sides[2] / PX + CLIPPED and lower <= sides[3] / PX + CLIPPED)

    def draw(self, kind, element, place):
        """Adds the lines of a shape to the block of its colour."""
        style = place.style
        stroke = "transparent" if is_clear(style["stroke-width"].rstrip("px")) else painted(style, "stroke", self.library)
        if isinstance(stroke, tuple):
            lines = moved_lines(place.matrix, self.lines_of(kind, element, place.size))
            label = plain("/".join(place.labels))
            self.left_out["empty"] += not lines
            self.blocks.setdefault(stroke, []).extend((label, line) for line in lines)
        elif kind != "line" and (style["fill"].startswith("url(") or isinstance(painted(style, "fill", self.library), tuple)):
            if not self.is_background(self.lines_of(kind, element, place.size), place.matrix):
                raise Refused(OUTLINE if self.is_traced else FILLED)
            self.left_out["as large as the page, without a stroke"] += 1
        else:
            self.left_out["transparent" if stroke else "without a stroke"] += 1
