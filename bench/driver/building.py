"""Builds the programs, and lets them make the inputs."""

import subprocess
import sys

from places import BENCH, BIN, INPUTS, REPOSITORY


def say(text):
    print(f"bench: {text}", file=sys.stderr, flush=True)


def build_program(name):
    """Proves and builds one of the repository's programs."""
    say(f"building {name}; from nothing this takes some minutes")
    subprocess.run([REPOSITORY / "build", name], check=True)


def build_plain(name):
    """Builds one of the programs of this folder with rustc alone."""
    say(f"building {name}")
    BIN.mkdir(parents=True, exist_ok=True)
    source = BENCH / name / "main.rs"
    subprocess.run(["rustc", "-O", "--edition", "2021", "-o", BIN / name, source], check=True)


def make_inputs(sizes):
    say("making inputs")
    INPUTS.mkdir(parents=True, exist_ok=True)
    commands = ",".join(str(size) for size in sizes.commands)
    words = [BIN / "inputs", INPUTS, commands, str(sizes.stops), str(sizes.bytes)]
    subprocess.run(words, check=True)
