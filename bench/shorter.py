#!/usr/bin/env python3
"""Replaces proofs by one call of `grind` where the check accepts it. To be run in the folder of a crate.

    bench/shorter.py [--answers]

For each proof of two lines or more it tries `grind (arith, nat_tests, LEMMAS)`, with the lemmas that the proof cites: for
an equation of a lemma, for an equation below a `where`, and for a lemma of several equations that doesn't recurse. With
--answers it tries the answers of functions instead. One check tries all of them; those that it refuses are put back, until
the crate is proved. Commit first, read the diff, and run `rt fmt`: where the old proof said more than a list of lemmas,
keep it. A list that fits no row gets a row for each lemma, so a proof of few rows stays.
"""
import glob
import os
import re
import subprocess
import sys

NAME = re.compile(r"[A-Za-z_][\w'’]*(?:-[\w'’]+)*")
PATH = re.compile(r"(?<![\w.'’-])[A-Za-z_][\w'’-]*(?:\.[A-Za-z_0-9][\w'’-]*)*")
SIGNATURE = re.compile(r"^(?:pub )?([A-Za-z_][^\s:({]*)\s*:(?=\s|$)")
OTHER_ITEM = re.compile(r"^(?:pub )?(?:use|record|data|module|abbrev|open|unfolding)\b")
IMPORT = re.compile(r"^(?:pub )?use (Rattle\.\S+?)\.\{([^}]*)\}$")
TACTICS = {"arith", "nat_tests", "ints", "refl", "sym", "ap", "subst", "rw", "cc", "omega", "grind", "absurd", "simp", "let",
           "in", "where", "elim", "if", "then", "else", "cond", "true", "false", "zero", "suc"}
NEEDED = {"arith": "Rattle.std.proofs.Common", "nat_tests": "Rattle.std.proofs.lemmas.Bool.Decides"}
WIDTH = 138


def groups(text, mark):
    """The parts of a text between marks that are in no bracket."""
    parts, depth, part = [], 0, ""
    for letter in text:
        depth += (letter in "({[") - (letter in ")}]")
        if letter == mark and depth == 0:
            parts, part = parts + [part.strip()], ""
        else:
            part += letter
    return parts + [part.strip()]


def in_brackets(text, at):
    """The part of a text from a bracket to the one that closes it."""
    depth = 0
    for end in range(at, len(text)):
        depth += (text[end] == "(") - (text[end] == ")")
        if depth == 0:
            return text[at:end + 1]
    return text[at:]


def arguments(statement):
    """Names for the arguments of a lemma; a premise without a name gets one."""
    names = []
    for at, part in enumerate(groups(statement, "→")[:-1]):
        binders = re.findall(r"([({])([^:(){}]+):\s", part) if re.match(r"^[({][^:(){}]+:\s", part) else []
        if binders:
            names += [name for bracket, list_ in binders if bracket == "(" for name in list_.split()]
        else:
            names.append("h%d" % at)
    return names


def split_equation(rows):
    """The left and the right side of an equation."""
    text, depth = "\n".join(rows), 0
    for at, letter in enumerate(text):
        depth += (letter in "({[") - (letter in ")}]")
        if letter == "=" and depth == 0 and text[at - 1] == " " and text[at + 1:at + 2] in (" ", "\n"):
            return text[:at].rstrip(), text[at + 1:]
    return None, None


def homes(rows):
    """The module of each name that rows import."""
    found = {}
    for row in rows:
        match = IMPORT.match(row)
        for name in match.group(2).split(",") if match else ():
            found[name.strip()] = match.group(1)
    return found


def passed_on():
    """The module of each name that the crate's proofs import through proofs/Names.antt."""
    path = os.path.join("proofs", "Names.antt")
    return homes(open(path, encoding="utf-8").read().split("\n")) if os.path.exists(path) else {}


class Proofs:
    """A file of proofs, and the proofs in it that may become shorter."""

    def __init__(self, path):
        self.path = path
        self.text = open(path, encoding="utf-8").read()
        self.rows = self.text.split("\n")
        self.home = homes(self.rows)
        self.home.update((name, home) for name, home in passed_on().items() if name in self.home)
        self.lemmas = {match.group(1) for match in map(SIGNATURE.match, self.rows) if match}

    def candidates(self):
        """Each as its first row, the row after its last, its left side, its right side and its name."""
        found = list(self.equations()) + list(self.inner_equations())
        whole = list(self.whole_lemmas())
        return whole + [c for c in found if not any(w[0] <= c[0] < w[1] for w in whole)]

    def end_of(self, at, depth):
        end = at + 1
        while end < len(self.rows) and (not self.rows[end].strip()
                                        or len(self.rows[end]) - len(self.rows[end].lstrip()) > depth):
            end += 1
        while not self.rows[end - 1].strip():
            end -= 1
        return end

    def equations(self):
        for at, row in enumerate(self.rows):
            name = NAME.match(row)
            if name and name.group(0) in self.lemmas and not SIGNATURE.match(row) and not OTHER_ITEM.match(row):
                end = self.end_of(at, 0)
                left, right = split_equation(self.rows[at:end])
                if right is not None and end - at > 1:
                    yield at, end, left, right, name.group(0)

    def inner_equations(self):
        inner = {match.group(1) for match in (re.match(r"^\s+([A-Za-z_][\w'-]*)\s*:\s", row) for row in self.rows) if match}
        for at, row in enumerate(self.rows):
            match = re.match(r"^(\s{2,6})([A-Za-z_][\w'-]*)(?: .*)?=(?:\s|$)", row)
            if match and match.group(2) in inner and not row.endswith(";"):
                end = self.end_of(at, len(match.group(1)))
                left, right = split_equation(self.rows[at:end])
                if right is not None and end - at > 1 and not re.search(r"\bwhere\b", right):
                    yield at, end, left, right, match.group(2)

    def whole_lemmas(self):
        heads = [at for at, row in enumerate(self.rows) if SIGNATURE.match(row)]
        for head in heads:
            name, body = SIGNATURE.match(self.rows[head]).group(1), self.end_of(head, 0)
            end = body
            while end < len(self.rows) and self.rows[end].startswith(name + " "):
                end = self.end_of(end, 0)
            rows = self.rows[body:end]
            calls = re.findall(r"(?<![\w.'-])" + re.escape(name) + r"(?![\w'.-])", " ".join(rows))
            equations = [row for row in rows if row.startswith(name + " ")]
            if len(equations) > 1 and len(calls) == len(equations):
                statement = " ".join(row.strip() for row in self.rows[head:body])
                names = arguments(statement[statement.index(":") + 1:])
                yield body, end, " ".join([name] + names), "\n".join(rows), name

    def cited(self, right, name):
        """The lemmas that a proof cites, its facts, and its recursive calls."""
        bound = set()
        for list_ in re.findall(r"λ\s+([^.]*?)\.", right) + re.findall(r"let ([\w'-]+)", right):
            bound |= set(NAME.findall(list_))
        bound |= {match.group(1) for match in re.finditer(r"^\s+([A-Za-z_][\w'-]*)\s*:", right, re.M)}
        found = []
        for path in PATH.findall("\n".join(row for row in right.split("\n") if not row.strip().startswith("--"))):
            head, last = path.split(".")[0], path.split(".")[-1]
            if head in TACTICS | bound | {name} or last[:1].isupper():
                continue
            is_fact = "." in path and head not in self.home and head not in self.lemmas and len(last) > 1 and not re.search(
                r"^c\.(args|lifetimes)\b|\.(result|now|new|old|entry|index|items|length|number|name)(\.|$)", path)
            home = self.home.get(path, "")
            is_lemma = path in self.lemmas or ".proofs." in home and (not home.endswith(".Common") or "-" in path)
            if (is_fact or is_lemma) and path not in found:
                found.append(path)
        for match in re.finditer(r"\(" + re.escape(name) + r" ", right):
            call = re.sub(r"\s+", " ", in_brackets(right, match.start()))
            if not set(NAME.findall(call)) & bound and call not in found:
                found.append(call)
        return found

    def shorter(self, left, right, name):
        """The rows of the short proof."""
        words = ["arith", "nat_tests"] + self.cited(right, name)
        line = left + " = grind (" + ", ".join(words) + ")"
        if len(line) <= WIDTH:
            return line.split("\n")
        blanks = " " * (len(left) - len(left.lstrip()) + 4)
        call = blanks + "grind (" + ", ".join(words) + ")"
        if len(call) <= WIDTH:
            return (left + " =").split("\n") + [call]
        # As `rt fmt` lays it out: a row for each word of a list that fits no row.
        return (left + " =").split("\n") + [blanks + "grind ("] + [blanks + "  " + word + "," for word in words] + [blanks + ")"]

    def write(self, chosen):
        """Writes the file with the chosen candidates shortened, and returns the rows where each stands."""
        starts, rows, spans, at = {c[0]: c for c in chosen}, [], [], 0
        while at < len(self.rows):
            if at in starts:
                first, end, left, right, name = starts[at]
                short = self.shorter(left, right, name)
                spans.append((len(rows) + 1, len(rows) + len(short), starts[at]))
                rows, at = rows + short, end
            else:
                rows, at = rows + [self.rows[at]], at + 1
        for word, home in NEEDED.items() if spans else ():
            if word not in self.home:
                spans = self.import_word(rows, spans, word, home)
        open(self.path, "w", encoding="utf-8").write("\n".join(rows) if spans else self.text)
        return spans


    @staticmethod
    def import_word(rows, spans, word, home):
        """Imports a word, in the row that imports from its module or in one before all others."""
        for at, row in enumerate(rows):
            if row.startswith("use " + home + ".{"):
                rows[at] = row[:-1] + ", " + word + "}"
                return spans
        first = next((at for at, row in enumerate(rows) if row.startswith("use ")), 0)
        rows.insert(first, "use %s.{%s}" % (home, word))
        return [(a + 1, b + 1, c) for a, b, c in spans]


def check():
    done = subprocess.run(["rt", "check"], capture_output=True, text=True)
    return done.stdout + done.stderr


def main():
    wanted = [path for path in sorted(glob.glob("proofs/**/*.antt", recursive=True))
              if path.endswith("Answers.antt") == ("--answers" in sys.argv)
              and not path.endswith(("Invariants.antt", "Lib.antt", "Facts.antt"))]
    files = {path: Proofs(path) for path in wanted}
    chosen = {path: [c for c in proofs.candidates() if len(proofs.shorter(*c[2:])) < c[1] - c[0]]
              for path, proofs in files.items()}
    while any(chosen.values()):
        spans = {path: proofs.write(chosen[path]) for path, proofs in files.items()}
        log = check()
        print("%d tried" % sum(map(len, chosen.values())), flush=True)
        # The libraries that are built before have lines of their own.
        if re.findall(r"^logic=(\S+)", log, re.M)[-1:] == ["proved"]:
            return 0
        refused = set()
        for path, row in re.findall(r"(proofs/[^\s:]+\.antt):(\d+):\d+", log):
            refused |= {(path, c[0]) for a, b, c in spans.get(path, ()) if a <= int(row) <= b}
        if not refused:
            print(log[-2000:])
            break
        chosen = {path: [c for c in list_ if (path, c[0]) not in refused] for path, list_ in chosen.items()}
    for proofs in files.values():
        proofs.write([])
    return 1 if any(chosen.values()) else 0


sys.exit(main())
