"""Where things are."""

from pathlib import Path

BENCH = Path(__file__).resolve().parent.parent
REPOSITORY = BENCH.parent
BIN = BENCH / "out" / "bin"
INPUTS = BENCH / "out" / "inputs"
DOCUMENT = BENCH / "TABLES.md"
PROGRAMS = {"stitch": "stitch", "drawing": "stitch_drawing", "design": "stitch_design", "picture": "stitch_picture"}
# Each program by its short name, where it is built.
BUILT = {short: REPOSITORY / "crates" / name / "out" / name for short, name in PROGRAMS.items()}
