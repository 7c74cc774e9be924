"""Maps of points, curves cut where they turn, and rectangles, of an SVG file."""
import math
from typing import NamedTuple

from .style import Refused

# The length of a px, of which 96 are an inch, in tenths of a millimetre.
PX = 254 / 96
# How far outside a clip a line may reach, in tenths of a millimetre: less than is rounded.
CLIPPED = 0.5


class Matrix(NamedTuple):
    """An affine map of points: x becomes a x + c y + e, and y becomes b x + d y + f."""
    a: float = 1
    b: float = 0
    c: float = 0
    d: float = 1
    e: float = 0
    f: float = 0

    def of(self, x, y):
        """What a point becomes."""
        return self.a * x + self.c * y + self.e, self.b * x + self.d * y + self.f

    def inverse(self):
        """The map that undoes this one."""
        by = self.a * self.d - self.b * self.c
        a, b, c, d = self.d / by, -self.b / by, -self.c / by, self.a / by
        return Matrix(a, b, c, d, -a * self.e - c * self.f, -b * self.e - d * self.f)

    def then(self, outer):
        """This map followed by another."""
        (e, f), (a, b), (c, d) = outer.of(self.e, self.f), outer.of(self.a, self.b), outer.of(self.c, self.d)
        return Matrix(a - outer.e, b - outer.f, c - outer.e, d - outer.f, e, f)


def moved(matrix, point):
    """A point in tenths of a millimetre, from one in the units of a shape."""
    x, y = (PX * part for part in matrix.of(point.real, point.imag))
    if not abs(x) + abs(y) < 1e9:
        raise Refused("its numbers are too large")
    return complex(x, y)


def cut_at(curve, t):
    """The two parts of a cubic curve."""
    a, b, c, d = curve
    ab, bc, cd = a + t * (b - a), b + t * (c - b), c + t * (d - c)
    abc, bcd = ab + t * (bc - ab), bc + t * (cd - bc)
    middle = abc + t * (bcd - abc)
    return (a, ab, abc, middle), (middle, bcd, cd, d)


def turns(p, q, r, s):
    """Where a cubic polynomial, given by its four Bezier numbers, turns between 0 and 1."""
    a, b, c = s - 3 * r + 3 * q - p, 2 * (r - 2 * q + p), q - p
    root = math.sqrt(max(b * b - 4 * a * c, 0))
    under = -(b + math.copysign(root, b)) / 2
    return [t for t in ((under / a) if a else 0, (c / under) if under else 0) if 1e-6 < t < 1 - 1e-6]


def at_extremes(pieces, wanted=lambda point: True):
    """The pieces of a line with its curves cut where x or y turns, at the points that are wanted."""
    made = []
    for piece in pieces:
        done, curve = 0.0, piece if len(piece) == 4 else (0, 0, 0, 0)
        for t in sorted(set(turns(*(p.real for p in curve)) + turns(*(p.imag for p in curve)))):
            first, rest = cut_at(piece, (t - done) / (1 - done))
            if wanted(rest[0]):
                made, piece, done = made + [first], rest, t
        made.append(piece)
    return made


def sides_of(lines):
    """The left, upper, right and lower side of lines that are one upright rectangle, or None."""
    corners = [piece[0] for line in lines for piece in line if piece[0] != piece[-1]]
    corners += [line[-1][-1] for line in lines if line[-1][-1] != line[0][0]]
    xs, ys = sorted({corner.real for corner in corners}), sorted({corner.imag for corner in corners})
    is_round = any(len(piece) > 2 for line in lines for piece in line)
    is_slanted = any(a.real != b.real and a.imag != b.imag for a, b in zip(corners, corners[1:]))
    is_one = len(lines) == 1 and len(corners) == len(set(corners)) == 4 and len(xs) == len(ys) == 2
    return (xs[0], ys[0], xs[1], ys[1]) if is_one and not is_round and not is_slanted else None


def is_within(line, clip):
    """Whether a line in tenths of a millimetre is within a clip: the matrix of its units, and its sides."""
    matrix, (left, upper, right, lower) = clip
    to = matrix.inverse()
    own = [tuple(complex(*to.of(point.real / PX, point.imag / PX)) for point in piece) for piece in line]
    near = CLIPPED / PX / max(abs(complex(matrix.a, matrix.b)), abs(complex(matrix.c, matrix.d)))
    ends = [end for piece in at_extremes(own) for end in (piece[0], piece[-1])]
    return all(left - near <= end.real <= right + near and upper - near <= end.imag <= lower + near for end in ends)


def moved_lines(matrix, lines):
    """Lines in tenths of a millimetre, from those in the units of a shape."""
    return [[tuple(moved(matrix, point) for point in piece) for piece in line] for line in lines]
