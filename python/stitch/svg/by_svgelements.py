"""What the reader of SVG files needs of a library, by svgelements: paths, transforms and the names of colours."""
import math

from svgelements import Arc, Close, Color, CubicBezier, Matrix, Move, Path, QuadraticBezier


def matrix_of(call):
    """The six numbers of a call of a transform."""
    matrix = Matrix(call)
    return matrix.a, matrix.b, matrix.c, matrix.d, matrix.e, matrix.f


def named_colour(word):
    """Red, green and blue of a colour's name, 0 to 255, or None. The library takes unknown words as black or digits."""
    if not (word.isascii() and word.isalpha()) or set(word) <= set("abcdef"):
        return None
    colour = Color(word)
    return None if colour.hex == "#000000" and word != "black" else (colour.red, colour.green, colour.blue)


def pieces_of(part):
    """A part of a path as two points, or as the four of each of its cubic curves."""
    a, b = complex(*part.start), complex(*part.end)
    if isinstance(part, CubicBezier):
        return [(a, complex(*part.control1), complex(*part.control2), b)]
    if isinstance(part, QuadraticBezier):
        c = complex(*part.control)
        return [(a, (a + 2 * c) / 3, (b + 2 * c) / 3, b)]
    if isinstance(part, Arc) and part.rx and part.ry and a != b:
        count = math.ceil(abs(part.sweep) / (math.tau / 32) - 1e-6)
        return [tuple(complex(*point) for point in curve) for curve in part.as_cubic_curves(count)] or [(a, b)]
    return [(a, b)]


def lines_of(text):
    """The number of a path's parts, and its lines in its own units: lists of pieces, two points or four of a cubic curve."""
    path, lines, going = Path(text), [], False
    for part in path:
        if isinstance(part, Move):
            going = False
            continue
        if not going:
            lines.append([])
        lines[-1] += pieces_of(part)
        going = not isinstance(part, Close)
    return len(path), lines
