"""Refuses each call of the outside and each growth of memory in turn, and compares the results."""
import argparse
import os
import shutil
import subprocess
import sys
import tempfile

import memory
import playing
import rows
import system

HERE = os.path.dirname(os.path.dirname(os.path.abspath(__file__)))
HOME = os.path.dirname(os.path.dirname(HERE))
WORK = os.path.join(HOME, "bench", "out", "faults")


def run(args, **more):
    subprocess.run(args, check=True, **more)


def built():
    """The program, proved and built."""
    run([os.path.join(HOME, "build"), "stitch"])
    return os.path.join(HOME, "crates", "stitch", "out", "stitch")


def built_over_memory():
    """The program that runs a command over files in memory, built beside copies of the crates below it."""
    top = os.path.join(WORK, "over_memory")
    crates = os.path.join(top, "crates")
    os.makedirs(crates, exist_ok=True)
    with open(os.path.join(HOME, "crates.txt")) as file:
        text = file.read()
    libraries = text.split("\nstitch: ")[1].splitlines()[0]
    with open(os.path.join(top, "crates.txt"), "w") as file:
        file.write(text.split("\nstitch: ")[0] + f"\nover_memory: {libraries} outside_io\n")
    # what was proved and built of a library is kept in out/rlib, and is taken with it
    for name in os.listdir(os.path.join(HOME, "crates")):
        for part in ("src", "specs", "proofs", "out/rlib"):
            place = os.path.join(HOME, "crates", name, part)
            if name != "stitch" and os.path.isdir(place):
                shutil.copytree(place, os.path.join(crates, name, part), dirs_exist_ok=True)
    crate = os.path.join(crates, "over_memory")
    os.makedirs(os.path.join(crate, "src"), exist_ok=True)
    # The gate reads each .rt file of the repository as a crate's, so this one has another ending here.
    shutil.copy(os.path.join(HERE, "over_memory.rattle"), os.path.join(crate, "src", "main.rt"))
    # without arguments nothing is begun, and the status shows that
    subprocess.run(["rt", "run"], cwd=crate, stdin=subprocess.DEVNULL)
    return os.path.join(crate, "out", "over_memory")


def shim():
    """The library that refuses a growth."""
    place = os.path.join(WORK, "refuse.so")
    run(["cc", "-shared", "-fPIC", "-O1", "-o", place, os.path.join(HERE, "shim", "refuse.c"), "-ldl"])
    return place


def make_all(tally, program, folder):
    """Runs all commands in order where nothing fails, and returns what they make."""
    tally.begin("no fault")
    made = dict(rows.FIRST_FILES)
    for command in rows.COMMANDS:
        playing.lay(folder, {name: made[name] for name in command.inputs})
        left = playing.play(folder, [program, *command.words], command.outputs)
        is_right = (left.status, left.out, left.err) == (command.status, command.out, command.err)
        for name, holds in command.holds.items():
            is_right = is_right and left.files[name] == holds
        for name, end in command.ends.items():
            is_right = is_right and left.files[name] is not None and left.files[name].endswith(end)
        tally.see(f"{command.words}", is_right, left)
        if command.status == rows.DONE:
            made.update(left.files)
    return made


def main():
    parser = argparse.ArgumentParser(description=__doc__)
    parser.add_argument("--stitch", help="a program that was built elsewhere")
    parser.add_argument("--over-memory", help="the program over files in memory, built elsewhere")
    parser.add_argument("--times", type=int, default=300, help="how often two programs run at once")
    given = parser.parse_args()
    os.makedirs(WORK, exist_ok=True)
    program = os.path.abspath(given.stitch or built())
    over = os.path.abspath(given.over_memory or built_over_memory())
    refuse = shim()
    tally = playing.Tally()
    place, log = os.path.join(WORK, "count"), os.path.join(WORK, "log")
    with tempfile.TemporaryDirectory() as folder:
        os.chmod(folder, 0o777)
        made = make_all(tally, program, folder)
        memory.calls(tally, over, folder, made)
        memory.puts(tally, over, folder, made)
        memory.growths(tally, over, folder, made, refuse, place)
        memory.real_growths(tally, program, folder, made, refuse, place)
        system.calls(tally, program, folder, made, log)
        system.sizes(tally, program, folder, made)
        system.streams(tally, program, folder, made)
        system.names(tally, program, folder, made)
        system.links(tally, program, folder, made)
        system.lines(tally, program, folder, given.times)
    for part, count in tally.counts.items():
        print(f"{count:6} {part}")
    print(f"{tally.runs:6} runs, {tally.wrong} differ")
    return 1 if tally.wrong else 0


if __name__ == "__main__":
    sys.exit(main())
