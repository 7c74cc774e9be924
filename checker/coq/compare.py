#!/usr/bin/env python3
"""Compares the checker that is extracted from Coq with the program and with check.py: `python3 compare.py JUDGE PROGRAM EXAMPLES [COUNT]`.

All three judge the triples of ../compare.py, right and spoiled, of COUNT generated drawings. Then designs, drawings and certificates with one place spoiled
are read by JUDGE and by check.py, and designs by the program too, which converts them to a list: what is read must be equal.
"""
import os
import random
import resource
import shutil
import subprocess
import sys
import tempfile

sys.path.insert(0, os.path.join(os.path.dirname(os.path.abspath(__file__)), ".."))
import check
import compare

READERS = {0: [compare.spoil_word, compare.spoil_line], 1: [compare.spoil_byte, compare.spoil_act, compare.spoil_end],
           2: [compare.spoil_number, compare.spoil_pass, compare.spoil_weight, compare.spoil_member, compare.spoil_end]}


def ask(judge, lines):
    """What the extracted checker prints for each line. Its recursion is deep, so it gets all of the stack."""
    most = resource.getrlimit(resource.RLIMIT_STACK)[1]
    done = subprocess.run([judge], input="".join(" ".join(words) + "\n" for words in lines), capture_output=True, text=True,
                          check=True, preexec_fn=lambda: resource.setrlimit(resource.RLIMIT_STACK, (most, most)))
    return done.stdout.splitlines()


def points(line):
    """Points as JUDGE prints them."""
    return " ".join(f"{x},{y}" for x, y in line)


def drawing_text(data):
    """What check.py reads of a drawing, as JUDGE prints it."""
    kept = []
    make_pieces = check.make_pieces
    check.make_pieces = lambda *words: kept.extend(words[1]) or make_pieces(*words)
    try:
        pieces, step = check.read_drawing(data)
    finally:
        check.make_pieces = make_pieces
    places = {id(block): place for place, block in enumerate(kept)}
    lines = sorted((number, places[id(piece.block)], line) for piece in pieces for number, line in piece.lines.items())
    given = [" ".join(f"{place}:{x},{y}" for place, block in enumerate(kept) for _, kind, (x, y) in block.given if kind == word)
             for word in (b"start", b"end")]
    return ";".join([str(step), "/".join(f"{place}:{points(line)}" for _, place, line in lines), *given,
                     "/".join(" ".join(str(number - 1) for number in sorted(piece.lines)) for piece in pieces)])


def acts_text(data, ending):
    """The acts that check.py reads of a design, as JUDGE prints them."""
    acts = check.read_acts(check.READERS[ending](data))
    return "acts " + " ".join(kind if point is None else f"{kind}:{points([point])}" for kind, point in acts)


def cert_text(data):
    """What check.py reads of a certificate, as JUDGE prints it."""
    return "|".join(["certificate"] + [
        ";".join([str(said), " ".join(map(str, walk)), "/".join(f"{weight}:{' '.join(map(str, named))}" for weight, named in cuts)])
        for said, walk, cuts in check.read_certificate(data)])


def read_by_check(name):
    """What check.py reads of a file, or that it refuses it."""
    with open(name, "rb") as file:
        data = file.read()
    ending = name.rpartition(".")[2]
    try:
        return {"rw": drawing_text, "cert": cert_text}.get(ending, lambda data: acts_text(data, ending))(data)
    except check.Refused:
        return "refused"


def acts_of_list(name):
    """The acts of a list that the program wrote, as JUDGE prints them."""
    with open(name, encoding="ascii") as file:
        rows = [row.split(" ") for row in file.read().split("\n")[2:-2]]
    acts = ["stop" if kind == "block" else ":".join([kind] + [",".join(numbers)] * bool(numbers)) for kind, *numbers in rows]
    return "acts " + " ".join(acts[1:])


class Comparison(compare.Comparison):
    """The comparison of the program with check.py, in which JUDGE judges the same files."""
    judge_program = None

    def judge(self, cases, wanted=None):
        """Compares the verdicts of all three over named files."""
        super().judge(cases, wanted)
        for names, said in zip(cases, ask(self.judge_program, cases)):
            line = check.run(names)[1]
            if said != ("yes" if line == "yes" else "no"):
                sys.exit(f"coq: check {' '.join(names)}\ncheck.py: {line}\nCoq: {said}")


def compare_readers(run_all, judge, folder, count):
    """Compares what is read of spoiled files, and counts them and those that are refused."""
    comparison = compare.Comparison(run_all, folder)
    names, lists = [], []
    for place, (_, triple, ending) in enumerate(compare.triples(comparison, count)):
        rng = random.Random(-place)
        contents = []
        for name in triple:
            with open(name, "rb") as file:
                contents.append(file.read())
        for which, spoils in READERS.items():
            for turn in range(2):
                spoiled = rng.choice(spoils)(rng, tuple(contents), ending)[which]
                name = comparison.names(f"{place}-{turn}-read", ending)[which]
                with open(name, "wb") as file:
                    file.write(spoiled)
                names.append(name)
                if which == 1:
                    lists.append([name, f"{name}.lst"])
    read = dict(zip(names, ask(judge, [[name] for name in names])))
    for name, ours in read.items():
        theirs = read_by_check(name)
        if ours != theirs:
            sys.exit(f"coq: reading {name}\ncheck.py: {theirs}\nCoq: {ours}")
    for (name, written), (status, line) in zip(lists, run_all([["convert"] + words for words in lists])):
        refused = status == 1 and line.startswith(f"stitch: {name}: ")
        if (read[name] == "refused") != refused or status == 0 and acts_of_list(written) != read[name]:
            sys.exit(f"coq: reading {name}\nprogram: {status} {line}\nCoq: {read[name]}")
    return len(read), sum(text == "refused" for text in read.values())


def main(judge, program, examples, count=compare.TRIPLES):
    """Compares in a new folder, which stays only where something differs."""
    def run_all(requests):
        """The status and the last line of each request."""
        for words in requests:
            done = subprocess.run([program] + words, capture_output=True, check=False)
            lines = (done.stderr if done.returncode else done.stdout).decode(errors="replace").splitlines()
            yield done.returncode, lines[-1] if lines else ""

    Comparison.judge_program = judge
    compare.Comparison = Comparison
    folder = tempfile.mkdtemp(prefix="coq")
    reasons = compare.compare(run_all, folder, examples, int(count))
    read, refused = compare_readers(run_all, judge, folder, int(count))
    shutil.rmtree(folder)
    print(f"coq: {sum(reasons.values())} verdicts of {len(reasons)} kinds agree with those of the program and of check.py")
    print(f"coq: {read} spoiled files are read alike, of which {refused} are refused")


if __name__ == "__main__":
    main(*sys.argv[1:])
