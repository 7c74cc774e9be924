"""The layers on which the extension shows places and routes. Their units are tenths of a millimetre."""
import cmath
import math

import inkex

from stitch.svg.drawing import THREADS

# The thread between two arrows, and before the first one of a piece.
APART, FIRST = 50, 25
# The cloth under a route, which dims what was drawn, and how far it reaches beyond the thread.
CLOTH, MARGIN = "#f4eee2", 40
MARK = {"fill": "none", "stroke": "#d4002a", "stroke-width": 2}
# The greatest number of places whose texts are moved apart.
CROWD = 300
LETTERS = {"font-family": "sans-serif", "font-size": "20px", "fill": "#202020", "stroke": "#ffffff", "stroke-width": 5,
           "stroke-linejoin": "round", "paint-order": "stroke fill"}


def layer(svg, page, name):
    """A new layer, in place of the one that a run before made. The page is the matrix from the document's units to px."""
    key = name.lower().replace(" ", "-")
    old = svg.getElementById(key)
    if old is not None:
        old.delete()
    made = inkex.Layer.new(name, id=key)
    made.transform = -inkex.Transform(tuple(page)) @ inkex.Transform(scale=96 / 254)
    return svg.add(made)


def add(parent, kind, style, **attributes):
    """Adds an element. An attribute's name has _ for each -."""
    element = kind()
    element.style = inkex.Style(style)
    for name, value in attributes.items():
        element.set(name.replace("_", "-"), str(value))
    return parent.add(element)


def write(parent, lines, x, y, **style):
    """Adds lines of text, of which the first has its base line at a height. All of them are 24 apart."""
    text = add(parent, inkex.TextElement, {**LETTERS, **style}, x=x, y=y)
    for k, line in enumerate(lines):
        part = add(text, inkex.Tspan, {}, x=x, y=y + 24 * k)
        part.set("sodipodi:role", "line")
        part.text = line


def free_box(taken, x, y, width, height):
    """The box of a text, below all those that are taken and would overlap it: left, top, right and low edge."""
    while any(x < right and left < x + width and y < low and top < y + height for left, top, right, low in taken):
        y += 6
    return x, y, x + width, y + height


def show_places(parent, places):
    """Adds a circle at each point with what is there beside it, and a line to a text that is moved down from another."""
    texts = {}
    for point, text in places:
        texts.setdefault(point, []).append(text)
    taken = [(x - 13, y - 13, x + 13, y + 13) for x, y in texts if len(texts) <= CROWD]
    for (x, y), lines in sorted(texts.items(), key=lambda place: place[0][1]):
        box = free_box(taken, x + 18, y - 12, 12 * max(map(len, lines)), 24 * len(lines))
        left, top = box[:2]
        taken += [box] * (len(texts) <= CROWD)
        add(parent, inkex.Circle, MARK, cx=x, cy=y, r=12)
        if top > y - 12:
            add(parent, inkex.Polyline, MARK, points=f"{x + 8},{y + 9} {left - 3},{top + 12}")
        write(parent, lines, left, top + 19)


def pieces_of(stitch_list):
    """The pieces of a stitch list, each its thread's number and its points. A trim or a block ends a piece."""
    pieces, thread, is_loose = [], 0, True
    for line in stitch_list.splitlines()[2:]:
        kind, *numbers = line.split()
        if kind == "block":
            thread = int(numbers[0])
        if kind in ("needle", "float"):
            if is_loose:
                pieces.append((thread, []))
            pieces[-1][1].append(complex(*map(int, numbers)))
        is_loose = kind not in ("needle", "float")
    return pieces


def arrows(points):
    """The places and directions of arrows along a thread: after FIRST, and from then on where APART of thread has passed."""
    left = FIRST
    for a, b in zip(points, points[1:]):
        length, passed = abs(b - a), 0
        while length - passed >= left and length:
            passed, left = passed + left, APART
            yield a + (b - a) * passed / length, (b - a) / length
        left -= length - passed


def colour_of(thread):
    """The colour of a thread's number. Numbers beyond the palette repeat it."""
    return f"#{THREADS[(thread - 1) % 64][:6]}"


def head(at, way):
    """The path of an arrow on the right of the thread, so that the two ways along a line are apart."""
    corners = (at + way * (6j + cmath.rect(8, turn * math.pi)) for turn in (0, 0.8, -0.8))
    return "M" + " ".join(f"{p.real:.1f},{p.imag:.1f}" for p in corners) + "z"


def show_piece(parent, number, thread, points):
    """Adds a piece: its thread, its arrows, and its number where it begins."""
    group = add(parent, inkex.Group, {})
    colour = colour_of(thread)
    path = " ".join(f"{p.real:g},{p.imag:g}" for p in points)
    line = {"fill": "none", "stroke-linejoin": "round", "stroke-linecap": "round"}
    add(group, inkex.Polyline, {**line, "stroke": "#606060", "stroke-width": 6}, points=path)
    add(group, inkex.Polyline, {**line, "stroke": colour, "stroke-width": 4}, points=path)
    heads = " ".join(head(at, way) for at, way in arrows(points))
    add(group, inkex.PathElement, {"fill": colour, "stroke": "#202020", "stroke-width": 1}, d=heads)
    add(group, inkex.Circle, {"fill": "#ffffff", "stroke": "#202020", "stroke-width": 2}, cx=points[0].real, cy=points[0].imag,
        r=11)
    write(group, [str(number)], points[0].real, points[0].imag + 5, **{"text-anchor": "middle", "font-size": "15px"})


def show_route(parent, stitch_list, report):
    """Adds the thread of each piece over a cloth, and the report below it."""
    pieces = pieces_of(stitch_list)
    xs, ys = zip(*((p.real, p.imag) for _, points in pieces for p in points))
    left, top, right, low = min(xs) - MARGIN, min(ys) - MARGIN, max(xs) + MARGIN, max(ys) + MARGIN
    lines = report.splitlines()
    add(parent, inkex.Rectangle, {"fill": CLOTH, "fill-opacity": 0.9, "stroke": "none"}, x=left, y=top, width=right - left,
        height=low - top + 24 * len(lines) + MARGIN / 2)
    for number, (thread, points) in enumerate(pieces, 1):
        show_piece(parent, number, thread, points)
    write(parent, lines, left + MARGIN / 2, low + 12, stroke="none")
