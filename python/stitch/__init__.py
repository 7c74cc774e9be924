"""Stitch for Python: redwork of drawings, and embroidery files, by the proved programs.

Lengths are millimetres; x grows to the right and y down. Values are frozen: what changes a design or a drawing returns another.
A refused file or limit raises `Refused`, an argument that isn't understood ValueError, and a file that can't be read or written
OSError. `run` is the low door: it runs a program over files in memory, as the others do.

    >>> import stitch
    >>> drawing = stitch.Drawing(b"redwork 1\\nstep 30\\ncolor 5\\nline 0 0 30 0 30 30 0 30 0 0\\n")
    >>> route = drawing.route("pes")
    >>> route.penetrations, route.design.size_mm
    (5, (3.0, 3.0))
    >>> stitch.check(drawing, route.design, route.certificate)
"""
from .arguments import FORMATS
from .design import Block, Design, Fit, Thread, palette
from .drawing import Drawing, Piece, Route, RoutedPiece, check
from .library import PROGRAMS, Refused, Reply, run, version
from .reports import Place
from .steps import STEPS

open = Design.open

__all__ = ["FORMATS", "PROGRAMS", "STEPS", "Block", "Design", "Drawing", "Fit", "Piece", "Place", "Refused", "Reply", "Route",
           "RoutedPiece", "Thread", "check", "open", "palette", "run", "version"]
