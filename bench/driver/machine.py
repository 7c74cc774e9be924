"""What the numbers were measured on."""

import datetime
import os
import shutil
import subprocess


def processor():
    """The processor's name, and its speed where the name has none."""
    with open("/proc/cpuinfo") as lines:
        fields = dict([word.strip() for word in line.split(":", 1)] for line in lines if ":" in line)
    name, speed = fields.get("model name", "unknown"), fields.get("cpu MHz")
    return name if "@" in name or not speed else f"{name} at {float(speed) / 1e3:.1f} GHz"


def kit():
    if not shutil.which("rt"):
        return "unknown (rt is not on the PATH)"
    return subprocess.run(["rt", "version"], capture_output=True, text=True).stdout.strip()


def rustc():
    return subprocess.run(["rustc", "--version"], capture_output=True, text=True).stdout.strip()


def commit(program):
    """The commit of the clone in which a program was built."""
    tool = ["git", "-C", program.parent, "rev-parse", "--short=8", "HEAD"]
    run = subprocess.run(tool, capture_output=True, text=True) if shutil.which("git") else None
    return run.stdout.strip() if run and not run.returncode else "unknown"


def date():
    return datetime.datetime.now(datetime.timezone.utc).strftime("%Y-%m-%d")


def load():
    return f"{os.getloadavg()[0]:.1f}"
