"""Counts what a program does, the same on every machine: its instructions, and the jumps through a table that it
takes."""

import os
import re
import shutil
import subprocess
import tempfile
from concurrent.futures import ThreadPoolExecutor
from contextlib import contextmanager
from dataclasses import dataclass
from pathlib import Path
from typing import Optional

from building import say
from places import INPUTS

FUNCTION = re.compile(r"^[0-9a-f]+ <(.*)>:$")
TABLE_JUMP = re.compile(r"^\s*([0-9a-f]+):\s+(?:notrack )?jmp\s+\*%")
MISSING = "valgrind is not on the PATH (apt-get install valgrind)"


@dataclass(frozen=True)
class Count:
    """What one run took: its instructions, its jumps through a table, and the function that took the most of them."""

    instructions: int
    jumps: Optional[int]
    jumper: str


def can_count():
    return shutil.which("valgrind") is not None


def table_jumps(program):
    """The function of each jump through a register in a program, by the jump's address; none without objdump."""
    if not shutil.which("objdump"):
        return None
    tool = ["objdump", "-d", "--no-show-raw-insn", program]
    jumps, function = {}, ""
    for line in subprocess.run(tool, stdout=subprocess.PIPE, text=True, check=True).stdout.splitlines():
        head = FUNCTION.match(line)
        jump = TABLE_JUMP.match(line)
        if head:
            function = head.group(1).split("::<")[0]
        elif jump:
            jumps[int(jump.group(1), 16)] = function
    return jumps


def executed(profile):
    """The object and the address of each instruction in a profile, and how often it was executed there."""
    object_name, below_call = "", False
    for line in profile:
        if line.startswith("ob="):
            object_name = line[3:].strip()
        elif line.startswith("0x") and not below_call:
            address, _, count = line.split()
            yield object_name, int(address, 16), int(count)
        below_call = line.startswith("calls=")


@contextmanager
def profiled(program, words, *flags):
    """The profile of one run by valgrind's callgrind, in a folder of its own among the inputs under their names."""
    with tempfile.TemporaryDirectory(dir=INPUTS.parent) as folder:
        for file in INPUTS.iterdir():
            if not file.name.startswith("written."):
                os.link(file, Path(folder) / file.name)
        kept = Path(folder) / "profile"
        run = ["valgrind", "--tool=callgrind", f"--callgrind-out-file={kept}", *flags, program, *words]
        subprocess.run(run, cwd=folder, stdout=subprocess.DEVNULL, stderr=subprocess.DEVNULL)
        with open(kept) as profile:
            yield profile


def instructions_of(program, words):
    """The instructions of one run, without those of programs that it starts."""
    with profiled(program, words) as profile:
        return next(int(line.split()[1]) for line in profile if line.startswith("summary:"))


def count_of(program, words, jumps):
    """What one run takes."""
    with profiled(program, words, "--dump-instr=yes", "--compress-pos=no", "--compress-strings=no") as profile:
        rows = list(executed(profile))
    total = sum(count for _, _, count in rows)
    if jumps is None:
        return Count(total, None, "")
    taken = {}
    for object_name, address, count in rows:
        if address in jumps and object_name == str(program):
            function = jumps[address]
            taken[function] = taken.get(function, 0) + count
    return Count(total, sum(taken.values()), max(taken, key=taken.get, default=""))


def count_all(cases, programs):
    """The counts of each case for each program, on all processors; of none where there is no valgrind."""
    if not can_count():
        say(f"{MISSING}: no instructions are counted")
        return {}
    say("counting instructions, and jumps through a table")
    jumps = [table_jumps(program) for program in programs]
    with ThreadPoolExecutor(os.cpu_count()) as pool:
        begun = {
            case: [pool.submit(count_of, program, case.words, of_it) for program, of_it in zip(programs, jumps)]
            for case in cases
        }
        return {case: [row.result() for row in rows] for case, rows in begun.items()}


def instructions_of_all(runs):
    """The instructions of each run, a program with its arguments, on all processors."""
    with ThreadPoolExecutor(os.cpu_count()) as pool:
        return list(pool.map(lambda run: instructions_of(*run), runs))
