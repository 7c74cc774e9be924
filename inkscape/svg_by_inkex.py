"""What the reader of SVG files needs of a library, by Inkscape's inkex: paths, transforms and the names of colours."""
import cmath
import math

import inkex
from inkex.colors import SVG_COLOR


def matrix_of(call):
    """The six numbers of a call of a transform."""
    return inkex.Transform(call).to_hexad()


def named_colour(word):
    """Red, green and blue of a colour's name, 0 to 255, or None."""
    digits = SVG_COLOR.get(word)
    return tuple(bytes.fromhex(digits[1:])) if digits else None


def centre_of(a, b, rx, ry, is_large, is_swept):
    """The centre of the ellipse of an arc whose axes are those of the coordinates, and its radii, as great as they must be.

    After the implementation notes on elliptical arcs in SVG 1.1, second edition, of the World Wide Web Consortium.
    """
    half = complex((a - b).real / 2 / rx, (a - b).imag / 2 / ry)
    grown = max(1.0, abs(half))
    rx, ry, half = rx * grown, ry * grown, half / grown
    aside = half * 1j * math.sqrt(max(1 / abs(half) ** 2 - 1, 0)) * (1 if is_large == is_swept else -1)
    return (a + b) / 2 + complex(aside.real * rx, aside.imag * ry), rx, ry


def arc_pieces(a, b, rx, ry, degrees, is_large, is_swept):
    """The cubic curves of an arc, each of a 32nd of a turn at most.

    After L. Maisonobe, "Drawing an elliptical arc using polylines, quadratic or cubic Bezier curves" (2003), section 3.4.1.
    """
    turn = cmath.rect(1, math.radians(degrees))
    centre, rx, ry = centre_of(a / turn, b / turn, rx, ry, is_large, is_swept)

    def angle(point):
        return cmath.phase(complex((point / turn - centre).real / rx, (point / turn - centre).imag / ry))

    first, sweep = angle(a), (angle(b) - angle(a)) % math.tau
    sweep -= 0 if is_swept else math.tau
    count = math.ceil(abs(sweep) / (math.tau / 32) - 1e-6)
    part = sweep / count
    reach = math.sin(part) * (math.sqrt(4 + 3 * math.tan(part / 2) ** 2) - 1) / 3

    def placed(point):
        return (centre + complex(point.real * rx, point.imag * ry)) * turn

    rays = [cmath.rect(1, first + k * part) for k in range(count + 1)]
    curves = [[placed(p), placed(p + reach * 1j * p), placed(q - reach * 1j * q), placed(q)] for p, q in zip(rays, rays[1:])]
    curves[0][0], curves[-1][-1] = a, b
    return [tuple(curve) for curve in curves]


def pieces_of(part):
    """A part of a path, of absolute numbers, as two points, or as the four of each of its cubic curves."""
    a, b = complex(*part.previous_end_point), complex(*part.end_point)
    if part.letter == "A" and part.args[0] and part.args[1] and a != b:
        rx, ry, degrees, is_large, is_swept = part.args[:5]
        return arc_pieces(a, b, abs(rx), abs(ry), degrees, bool(is_large), bool(is_swept))
    if part.letter in "CQ":
        c, d = (complex(*point) for point in [*part.control_points][:2])
        return [(a, c, d, b) if part.letter == "C" else (a, (a + 2 * c) / 3, (b + 2 * c) / 3, b)]
    return [(a, b)]


def lines_of(text):
    """The number of a path's parts, and its lines in its own units: lists of pieces, two points or four of a cubic curve."""
    path, lines, going = inkex.Path(text).to_non_shorthand(), [], False
    for part in path.proxy_iterator():
        if part.letter == "M":
            going = False
            continue
        if not going:
            lines.append([])
        lines[-1] += pieces_of(part)
        going = part.letter != "Z"
    return len(path), lines
