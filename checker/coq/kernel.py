#!/usr/bin/env python3
"""Writes the file that Coq's kernel judges: `python3 kernel.py PROGRAM EXAMPLES > Kernel.v`.

It has the bytes of files: routes that the program writes in this run, and triples that were worked by hand from
docs/FORMATS.md. The program judges all of them too, and check.py: an answer that isn't the expected one ends the script.
"""
import os
import subprocess
import sys
import tempfile

sys.path.insert(0, os.path.join(os.path.dirname(os.path.abspath(__file__)), ".."))
import check

ROUTES = {"rose": ["dst", "exp", "pec", "pes", "lst"], "heart": ["exp"], "border": ["pec"], "motif": ["pes"], "sampler": ["dst"]}


def lines(*rows):
    """A text of lines."""
    return "".join(f"{row}\n" for row in rows).encode()


# ---- By hand: 3 to the right and 4 down in two steps of 2, there and back. Half of 3 is rounded down to 1.
DIAGONAL = lines("redwork 1", "step 2", "color 1", "line 0 0 3 4")
DIAGONAL_CERT = lines("redwork-certificate 1", "piece 2", "walk 1 -1", "cut 4 1", "end")
DIAGONAL_DST = bytes([32]) * 512 + bytes.fromhex("000003 814003 824103 418203 428003 824183 828283 824183 0000F3")
DIAGONAL_EXP = bytes.fromhex("0000 01FE 02FE FE02 FF02 80800700")
DIAGONAL_RECORDS = bytes(528) + bytes.fromhex("0000 0102 0202 7E7E 7F7E A000A000 FF")
DIAGONAL_ROWS = ["needle 0 0", "needle 1 2", "needle 3 4", "needle 1 2", "needle 0 0", "trim"]

# Three lines of 1, 2 and 2 steps between two points.
THETA_ROWS = ["step 10", "color 1", "line 0 0 10 0", "line 0 0 0 10 10 0", "line 0 0 0 -10 10 0"]
THETA_NEEDLES = ["needle 0 0", "needle 10 0", "needle 0 10", "needle 0 0", "needle 0 -10", "needle 10 0"]
LONGER_NEEDLES = THETA_NEEDLES + ["needle 0 10", "needle 0 0", "trim"]

# Two pieces in one block, of which the lines cross, and one in the next.
BLOCKS = lines("redwork 1", "step 10", "color 1", "line 0 0 9 0", "line 4 -5 4 5", "line 5 7 9 0", "color 2", "line 9 0 9 9")
BLOCKS_CERT = lines("redwork-certificate 1", "piece 2", "walk 1 -3 3 -1", "cut 2 1", "cut 2 3", "piece 1", "walk 2 -2", "cut 2 1",
                    "piece 1", "walk 4 -4", "cut 2 2", "end")
BLOCKS_ROWS = [f"needle {point}" for point in ("0 0", "9 0", "5 7", "9 0", "0 0")] + ["trim"] + [
    f"needle {point}" for point in ("4 -5", "4 5", "4 -5")] + ["trim", "block 2", "needle 9 0", "needle 9 9", "needle 9 0", "trim"]

# Two lines with a point in common: four sections from version 2 on.
PLUS_ROWS = ["step 10", "color 1", "line 0 0 10 0 20 0", "line 10 -10 10 0 10 10"]
PLUS_CERT = lines("redwork-certificate 1", "piece 4", "walk 1 2 -2 -3 3 4 -4 -1", "cut 2 1", "cut 2 3", "cut 2 4", "cut 2 5", "end")
PLUS_NEEDLES = [f"needle {point}" for point in ("0 0", "10 0", "20 0", "10 0", "10 -10", "10 0", "10 10", "10 0", "0 0")] + ["trim"]


def sewn(*rows):
    """A stitch list of one block, or of several."""
    return lines("stitch-list 1", "label []", "block 1", *rows, "end")


def theta(version, more, needles, cert):
    """A triple over the three lines."""
    return lines(f"redwork {version}", *THETA_ROWS, *more), "lst", sewn(*needles), lines("redwork-certificate 1", *cert, "end")


CLOSED = THETA_NEEDLES + ["needle 0 0", "trim"]
WORKED = [
    ("diagonal_list", (DIAGONAL, "lst", sewn(*DIAGONAL_ROWS), DIAGONAL_CERT), True),
    ("diagonal_dst", (DIAGONAL, "dst", DIAGONAL_DST, DIAGONAL_CERT), True),
    ("diagonal_exp", (DIAGONAL, "exp", DIAGONAL_EXP, DIAGONAL_CERT), True),
    ("diagonal_pec", (DIAGONAL, "pec", b"#PEC0001" + DIAGONAL_RECORDS, DIAGONAL_CERT), True),
    ("diagonal_pes", (DIAGONAL, "pes", b"#PES0001\x10\0\0\0" + bytes(4) + DIAGONAL_RECORDS, DIAGONAL_CERT), True),
    ("rounded_up", (DIAGONAL, "lst", sewn("needle 0 0", "needle 2 2", "needle 3 4", "needle 2 2", *DIAGONAL_ROWS[4:]), DIAGONAL_CERT), False),
    ("by_longest_steps", (DIAGONAL, "lst", sewn("needle 0 0", "needle 2 2", "needle 3 4", "needle 1 2", *DIAGONAL_ROWS[4:]), DIAGONAL_CERT), False),
    ("no_trim", (DIAGONAL, "lst", sewn(*DIAGONAL_ROWS[:5]), DIAGONAL_CERT), False),
    ("with_a_float", (DIAGONAL, "lst", sewn("needle 0 0", "float 1 2", *DIAGONAL_ROWS[2:]), DIAGONAL_CERT), False),
    ("theta", theta(1, [], CLOSED, ["piece 1", "walk 1 -2 3 -1", "cut 2 1"]), True),
    ("theta_by_two_cuts", theta(1, [], CLOSED, ["piece 1", "walk 1 -2 3 -1", "cut 1 1", "cut 1 2"]), True),
    ("theta_by_an_even_cut", theta(1, [], CLOSED, ["piece 1", "walk 1 -2 3 -1", "cut 2 1 2"]), False),
    ("theta_by_too_little", theta(1, [], CLOSED, ["piece 1", "walk 1 -2 3 -1", "cut 1 1"]), False),
    ("longer_theta", theta(1, [], LONGER_NEEDLES, ["piece 2", "walk 1 -2 3 -2", "cut 4 1"]), False),
    ("theta_from_end_to_end", theta(3, ["start 0 0", "end 10 0"], THETA_NEEDLES + ["trim"], ["piece 0", "walk 1 -2 3"]), True),
    ("theta_from_the_other_end", theta(3, ["end 0 0", "start 10 0"], THETA_NEEDLES + ["trim"], ["piece 0", "walk 1 -2 3"]), False),
    ("theta_from_one_end", theta(3, ["end 0 0"], CLOSED, ["piece 1", "walk 1 -2 3 -1", "cut 2 2"]), True),
    ("open_theta", theta(1, [], THETA_NEEDLES + ["trim"], ["piece 0", "walk 1 -2 3"]), False),
    ("blocks", (BLOCKS, "lst", sewn(*BLOCKS_ROWS), BLOCKS_CERT), True),
    ("one_block", (BLOCKS, "lst", sewn(*[row for row in BLOCKS_ROWS if row != "block 2"]), BLOCKS_CERT), False),
    ("plus_of_version_2", (lines("redwork 2", *PLUS_ROWS), "lst", sewn(*PLUS_NEEDLES), PLUS_CERT), True),
    ("plus_of_version_1", (lines("redwork 1", *PLUS_ROWS), "lst", sewn(*PLUS_NEEDLES), PLUS_CERT), False),
]


def routes(program, examples, folder):
    """Routes of examples by the program: a name, the drawing, the ending, the design and the certificate."""
    for name, endings in ROUTES.items():
        for ending in endings:
            names = [os.path.join(examples, f"{name}.rw"), os.path.join(folder, f"{name}.{ending}"), os.path.join(folder, f"{name}.cert")]
            subprocess.run([program, "route"] + names, check=True, stdout=subprocess.DEVNULL)
            drawing, design, cert = [open(name, "rb").read() for name in names]
            yield f"{name}_{ending}", (drawing, ending, design, cert), True


def judge(program, folder, name, triple, expected):
    """Tests that the program and check.py judge a triple as expected."""
    names = [os.path.join(folder, f"{name}.{word}") for word in ("rw", triple[1], "cert")]
    for path, data in zip(names, triple[:1] + triple[2:]):
        with open(path, "wb") as file:
            file.write(data)
    done = subprocess.run([program, "check"] + names, capture_output=True, check=False)
    if (done.stdout == b"yes\n", check.run(names)[1] == "yes") != (expected, expected):
        sys.exit(f"coq: {name}: {done.stdout + done.stderr}, {check.run(names)[1]}")


def shown(name, data):
    """Bytes as a definition in Coq."""
    numbers = [str(byte) for byte in data]
    rows = "; ".join(numbers)
    return f"Definition {name} : bytes := [{rows}]."


def theorem(name, ending, expected):
    """What the kernel has to find about a triple."""
    files = f"{ending.upper()} {name}_drawing {name}_design {name}_cert"
    if not expected:
        return f"Example {name} : check_files {files} = false. Proof. vm_compute. reflexivity. Qed."
    return (f"Theorem {name} : exists d design certs, drawing_of {name}_drawing = Some d /\\ design_of {ending.upper()} {name}_design"
            f" = Some design /\\ cert_of {name}_cert = Some certs /\\ IsLeastRedwork d design certs.\n"
            f"Proof. apply (proj1 (yes_of_files {files})). vm_compute. reflexivity. Qed.")


def main(program, examples):
    """Writes the file for Coq."""
    print("(** Routes of this run and triples worked by hand, judged by Coq's kernel. Written by kernel.py. *)")
    print("From Coq Require Import ZArith List.\nFrom Redwork Require Import LeastRedwork Formats Files.")
    print("Import ListNotations.\nOpen Scope Z_scope.")
    with tempfile.TemporaryDirectory() as folder:
        for name, triple, expected in [*routes(program, examples, folder), *WORKED]:
            judge(program, folder, name, triple, expected)
            for word, data in zip(("drawing", "design", "cert"), triple[:1] + triple[2:]):
                print(shown(f"{name}_{word}", data))
            print(theorem(name, triple[1], expected))


if __name__ == "__main__":
    main(*sys.argv[1:])
