"""The drawing of an SVG file: its lines as whole points, by threads of the PEC palette, and its text.

It is shared by Drawing.from_svg, from_svg.py and the extension of Inkscape, which read paths, transforms and colours by different
libraries.
"""
import math
import xml.etree.ElementTree as ElementTree
from bisect import bisect_left
from collections import Counter
from itertools import accumulate
from types import ModuleType
from typing import NamedTuple, Optional

from .geometry import at_extremes
from .strokes import Reader, plain
from .style import Refused, kind_of

# The greatest distance of a curve from its samples, in tenths of a millimetre.
SAMPLED = 0.04
LINES, POINTS, STEPS, REACH, BLOCKS = 1024, 65536, 200000, 30000, 255
# The least and the greatest value of each option, in the units of `drawing`.
RANGES = {"step": (1, 2047), "within": (0.08, 10), "apart": (0.3, 10), "width": (1, 60000)}
THREADS = """0e1f7c Prussian Blue,0a55a3 Blue,008777 Teal Green,4b6baf Cornflower Blue,ed171f Red,d15c00 Reddish Brown,
913697 Magenta,e49acb Light Lilac,915fac Lilac,9ed67d Mint Green,e8a900 Deep Gold,feba35 Orange,ffff00 Yellow,70bc1f Lime Green,
ba9800 Brass,a8a8a8 Silver,7d6f00 Russet Brown,ffffb3 Cream Brown,4f5556 Pewter,000000 Black,0b3d91 Ultramarine,
770176 Royal Purple,293133 Dark Gray,2a1301 Dark Brown,f64a8a Deep Rose,b27624 Light Brown,fcbbc5 Salmon Pink,fe370f Vermilion,
f0f0f0 White,6a1c8a Violet,a8ddc4 Seacrest,2584bb Sky Blue,feb343 Pumpkin,fff36b Cream Yellow,d0a660 Khaki,d15400 Clay Brown,
66ba49 Leaf Green,134a46 Peacock Blue,878787 Gray,d8ccc6 Warm Gray,435607 Dark Olive,fdd9de Flesh Pink,f993bc Pink,
003822 Deep Green,b2afd4 Lavender,686ab0 Wisteria Violet,efe3b9 Beige,f73866 Carmine,b54b64 Amber Red,132b1a Olive Green,
c70156 Dark Fuchsia,fe9e32 Tangerine,a8deeb Light Blue,00673e Emerald Green,4e2990 Purple,2f7e20 Moss Green,ffcccc Flesh Pink,
ffd911 Harvest Gold,095ba6 Electric Blue,f0f970 Lemon Yellow,e3f35b Fresh Green,ff9900 Orange,fff08d Cream Yellow,
ffc8c8 Applique""".replace("\n", "").split(",")


def title_of(root):
    """The title of a document as a label of at most 16 bytes without spaces."""
    title = next((child for child in root if kind_of(child) == "title"), None)
    return plain("".join(title.itertext()) if title is not None else "").replace(" ", "-")[:16].rstrip("-")


def rounded(point):
    """The nearest whole numbers. What differs by less than a millionth rounds alike, so that clones meet."""
    return math.floor(round(point.real, 6) + 0.5), math.floor(round(point.imag, 6) + 0.5)


def samples(curve):
    """Points of a cubic curve, half a tenth of a millimetre apart at most; the curve is within SAMPLED of their chords."""
    a, b, c, d = curve
    speed, bend = 6 * max(abs(b - a), abs(c - b), abs(d - c)), 6 * max(abs(a - 2 * b + c), abs(b - 2 * c + d))
    count = max(1, math.ceil(speed), math.ceil(math.sqrt(bend / 8 / SAMPLED)))
    parts = ((k / count, 1 - k / count) for k in range(1, count))
    return [a, *(u * u * u * a + 3 * u * u * t * b + 3 * u * t * t * c + t * t * t * d for t, u in parts), d]


def beside(point, a, b):
    """The distance of a point from the segment of two others."""
    along, to = b - a, point - a
    part = (to.real * along.real + to.imag * along.imag) / abs(along) ** 2 if a != b else 0
    return abs(to - min(max(part, 0), 1) * along)


def curve_points(curve, within, apart):
    """The points of a curve after its first: as few as fit, spaced evenly, and closer at a sharp bend."""
    passed = samples(curve)
    way = [0.0, *accumulate(abs(b - a) for a, b in zip(passed, passed[1:]))]

    def fits(first, last):
        a, b = complex(*rounded(passed[first])), complex(*rounded(passed[last]))
        return last - first < 2 or abs(b - a) <= apart and all(
            beside(one, a, b) <= within - SAMPLED for one in passed[first + 1:last])

    def cut(first, last):
        middle = (first + last) // 2
        return [last] if fits(first, last) else cut(first, middle) + cut(middle, last)

    def pick(k):
        return bisect_left(way, way[-1] * k / count - 1e-6) if k < count else len(passed) - 1

    count = least = max(1, math.ceil(way[-1] / apart))
    while count < least + least // 4 + 2 and not all(fits(pick(k), pick(k + 1)) for k in range(count)):
        count += 1 + count // 1000
    return [rounded(passed[at]) for k in range(count) for at in cut(pick(k), pick(k + 1))]


def points_of(pieces, within, apart):
    """The whole points of a line, no two neighbours alike: all of them, or more than a drawing has."""
    points = [rounded(pieces[0][0])]
    for piece in pieces:
        for point in curve_points(piece, within, apart) if len(piece) == 4 else [rounded(piece[1])]:
            if point != points[-1]:
                points.append(point)
        if len(points) > POINTS:
            break
    return points


def too_many(pieces, apart):
    """What is said of lines that have more points than a drawing. It names how far apart the points of curves have to be."""
    curves = [piece for piece in pieces if len(piece) == 4]
    left = POINTS - (len(pieces) - len(curves))
    wanted = math.ceil(sum(abs(b - a) for curve in curves for a, b in zip(curve, curve[1:])) / left) / 10 if left > 0 else 0
    advice = f"take --apart={wanted:g} or more, or divide" if apart < wanted <= 10 else "divide"
    return f"more than {POINTS} points: {advice} the drawing"


def scaled(blocks, width):
    """The lines, cut where they reach the edges of the drawing, and as wide as requested. Left and upper edge stay."""
    pieces = [piece for lines in blocks.values() for _, line in lines for piece in at_extremes(line)]
    xs, ys = zip(*((end.real, end.imag) for piece in pieces for end in (piece[0], piece[-1])))
    (left, top), across, down = (min(xs), min(ys)), max(xs) - min(xs), max(ys) - min(ys)
    if width and across < 0.5:
        raise Refused("the drawing has no width, so --width can't scale it")
    by, corner = (width / across, complex(left, top)) if width else (1, 0)
    if max(across, down) * by > 2 * REACH + 1:
        raise Refused(f"the drawing is {max(across, down) * by:.0f} tenths of a millimetre large, more than {2 * REACH}: "
                      "scale it in the editor, or take --width=N")
    stay, near = complex(*rounded(corner)), 1e-6 * max(across, down)

    def is_edge(point):
        x, y = point.real - left, point.imag - top
        return min(abs(x), abs(across - x), abs(y), abs(down - y)) <= near

    return {colour: [(label, [tuple((point - corner) * by + stay for point in piece) for piece in at_extremes(line, is_edge)])
                     for label, line in lines] for colour, lines in blocks.items()}


def centred(blocks, centre):
    """The lines of whole points, moved where requested; and the report on their size and middle."""
    xs, ys = zip(*(point for lines in blocks.values() for _, points in lines for point in points))
    x, y = (min(xs) + max(xs)) // 2, (min(ys) + max(ys)) // 2
    size = f"size {max(xs) - min(xs)} {max(ys) - min(ys)} middle "
    if not centre:
        return blocks, size + f"{x} {y}"
    return {colour: [(label, [(a - x, b - y) for a, b in points]) for label, points in lines]
            for colour, lines in blocks.items()}, size + "0 0"


def check_limits(blocks, step):
    """Refuses what a drawing can't hold."""
    lines = [points for block in blocks.values() for _, points in block]
    cuts = 0
    for block in blocks.values():
        listed = Counter(point for _, points in block for point in points)
        cuts += sum(listed[point] > 1 for _, points in block for point in points[1:-1])
    steps = sum(-(-max(abs(a - c), abs(b - d)) // step) for points in lines for (a, b), (c, d) in zip(points, points[1:]))
    reach = max(abs(number) for points in lines for point in points for number in point)
    for count, limit, what in (
            (len(blocks), BLOCKS, "colours: give lines the same one"),
            (len(lines), LINES, "lines: join their ends (Node > Join), or divide the drawing"),
            (len(lines) + cuts, LINES, "lines, counted from meeting to meeting: divide the drawing"),
            (sum(map(len, lines)) + cuts, POINTS, "points: take a greater --apart, or divide the drawing"),
            (steps, STEPS, "steps: take a longer STEP, or divide the drawing"),
            (reach, REACH, "tenths of a millimetre from 0 0: take --centre, or --width=N")):
        if count > limit:
            raise Refused(f"{count} {what}; a drawing has at most {limit}")


# The colours that SVG and the palette have by one name, and the numbers of these threads.
NAMED = {(0, 0, 0): 20, (255, 255, 255): 29, (255, 0, 0): 5, (0, 0, 255): 2, (255, 255, 0): 13, (255, 165, 0): 12,
         (192, 192, 192): 16, (128, 128, 128): 39, (255, 0, 255): 7, (128, 0, 128): 55, (238, 130, 238): 30,
         (245, 245, 220): 47, (240, 230, 140): 35, (230, 230, 250): 45}


def lab(colour):
    """Lightness, green to red and blue to yellow of a colour (CIE 1976, daylight D65)."""
    r, g, b = (part / 3294.6 if part <= 10 else ((part / 255 + 0.055) / 1.055) ** 2.4 for part in colour)
    x, y, z = ((part ** (1 / 3) if part > 216 / 24389 else part * 841 / 108 + 4 / 29) for part in (
        0.4339 * r + 0.3762 * g + 0.1899 * b, 0.2126 * r + 0.7152 * g + 0.0722 * b, 0.0178 * r + 0.1095 * g + 0.8727 * b))
    return 116 * y - 16, 500 * (x - y), 200 * (y - z)


def thread_of(colour):
    """The number and the name of the thread with the colour's name in SVG, or else of the nearest one by CIE94."""
    def distance(thread):
        (l, a, b), (m, c, d) = lab(colour), lab(bytes.fromhex(thread[:6]))
        chroma = math.hypot(a, b)
        more = chroma - math.hypot(c, d)
        hue = max((a - c) ** 2 + (b - d) ** 2 - more * more, 0)
        return (l - m) ** 2 + (more / (1 + 0.045 * chroma)) ** 2 + hue / (1 + 0.015 * chroma) ** 2
    best = NAMED.get(tuple(colour)) or min(range(1, 65), key=lambda number: distance(THREADS[number - 1]))
    return best, THREADS[best - 1][7:]


def whole_lines(reader, width, within, apart):
    """The lines of whole points by colour. Those of a single point are counted."""
    drawn = scaled(reader.blocks, width) if any(reader.blocks.values()) else {}
    pieces = [piece for lines in drawn.values() for _, line in lines for piece in line]
    blocks, total = {}, 0
    if sum(abs(piece[3] - piece[0]) for piece in pieces if len(piece) == 4) > POINTS * 10 * apart:
        raise Refused(too_many(pieces, apart))
    for colour, lines in drawn.items():
        for label, line in lines:
            points = points_of(line, 10 * within, 10 * apart)
            total += len(points)
            if total > POINTS:
                raise Refused(too_many(pieces, apart))
            if len(points) > 1:
                blocks.setdefault(colour, []).append((label, points))
            else:
                reader.left_out["of a single point"] += 1
    return blocks


def text_of(blocks, title, step):
    """The text of a drawing, with a comment before each block, and before the lines of each label."""
    text = ["redwork 2"] + [f"name {title}"] * bool(title) + [f"step {step}"]
    for colour, lines in blocks.items():
        text += [f"# {thread_line(colour)}", f"color {thread_of(colour)[0]}"]
        for k, (label, points) in enumerate(lines):
            if label and (k == 0 or label != lines[k - 1][0]):
                text.append(f"# {label}")
            text.append("line " + " ".join(f"{x} {y}" for x, y in points))
    return "\n".join(text) + "\n"


def thread_line(colour):
    """A colour and its thread, as they are reported."""
    number, name = thread_of(colour)
    return f"#{bytes(colour).hex()} thread {number} {name}"


class Drawn(NamedTuple):
    """The text of a drawing, the report on it, what of that is to be heeded, and the label of each line.

    The page is the matrix from the document's own units to px.
    """
    text: str
    report: "list[str]"
    notes: "list[str]"
    labels: "list[str]"
    page: "tuple[float, ...]"


def document(data: bytes) -> "tuple[ElementTree.Element, str]":
    """The root of a document, and its text."""
    try:
        return ElementTree.fromstring(data), data.replace(b"\0", b"").decode("latin-1")
    except (ElementTree.ParseError, ValueError, LookupError) as why:
        raise Refused(f"not XML: {why}") from None


def drawing(root: ElementTree.Element, text: str, library: ModuleType, step: int = 25, within: float = 0.1, apart: float = 0.5,
            width: Optional[int] = None, centre: bool = False, skip: bool = False) -> Drawn:
    """The drawing of a document and its text. Lengths are mm, but for step and width: tenths."""
    if kind_of(root) != "svg":
        raise Refused("not an SVG file")
    reader = Reader(root, text, library)
    blocks = {} if reader.faults and not skip else whole_lines(reader, width, within, apart)
    left_out = ", ".join(f"{count} {what}" for what, count in reader.left_out.items() if count)
    if not blocks:
        raise Refused("\n".join(reader.faults) or "nothing is drawn with a stroke" + f"; left out: {left_out}" * bool(left_out))
    blocks, size = centred(blocks, centre)
    check_limits(blocks, step)
    notes = reader.notes * (width is None) + [f"left out: {what}" for what in reader.faults]
    report = [thread_line(colour) for colour in blocks] + notes + [f"left out: {left_out}"] * bool(left_out) + [size]
    labels = [label for lines in blocks.values() for label, _ in lines]
    return Drawn(text_of(blocks, title_of(root), step), report, notes, labels, reader.page)
