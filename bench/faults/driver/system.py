"""Faults of the system under the built program: its calls, its limits, its streams and its names."""
import os
import resource
import signal
import subprocess

import playing
import rows
import wanted

# the result of a call of the system, and whether it is made again
ANSWERS = {
    "openat": ["EIO", "ENOSPC", "EMFILE"],
    "statx": ["EIO"],
    "read": ["EIO", "EINTR"],
    "write": ["EIO", "ENOSPC", "EDQUOT", "EINTR"],
    "fsync": ["EIO", "ENOSPC", "EINTR"],
    "rename": ["EIO", "ENOSPC"],
    "lseek": ["EIO"],
}

BESIDE = ".stitch-0"


def laid(command, made, is_old=True):
    before = {name: playing.OLD if is_old else None for name in command.outputs}
    return before, {**{name: made[name] for name in command.inputs}, **before}


def refused_call(program, folder, log, command, call, answer, number):
    """Runs the command with one call refused, of those on its files and on standard output."""
    paths = [word for name in command.inputs + command.outputs + [BESIDE, "out"]
             for word in ("-P", os.path.join(folder, name) if name == "out" else name)]
    with open(os.path.join(folder, "out"), "wb") as out:
        left = playing.play(folder, ["strace", "--quiet=all", "-o", log, *paths, "-e", f"trace={call}", "-e",
                                     f"inject={call}:error={answer}:when={number}", program, *command.words],
                            command.outputs, stdout=out)
    left.out = playing.content(folder, "out")
    with open(log, "rb") as file:
        return left, b"(INJECTED)" in file.read()


def calls(tally, program, folder, made, log):
    """Each call of the system on a file that is named, or made beside one, refused in turn."""
    tally.begin("calls of the system")
    for command in rows.COMMANDS:
        for is_old in (False, True):
            before, files = laid(command, made, is_old)
            for call, answers in ANSWERS.items():
                for answer in answers:
                    number = 1
                    while True:
                        playing.lay(folder, files)
                        left, was_made = refused_call(
                            program, folder, log, command, call, answer, number)
                        if not was_made:
                            break
                        is_right = wanted.is_end(command, left, made, before)
                        if answer != "EINTR":
                            is_right = is_right or wanted.is_fault(command, left, made, before)
                        is_right = is_right and playing.is_clean(folder, {**files, "out": b""} | made)
                        is_right = is_right and BESIDE not in os.listdir(folder)
                        tally.see(f"{command.words}: {call} {number} {answer}", is_right, left)
                        number += 1


def limited(size):
    """Lets no file grow beyond that size; a write past it fails and sends no signal."""
    def prepare():
        signal.signal(signal.SIGXFSZ, signal.SIG_IGN)
        resource.setrlimit(resource.RLIMIT_FSIZE, (size, size))
    return prepare


def sizes(tally, program, folder, made):
    """Files that may not grow beyond each size: an output is the old one or the entire new one."""
    tally.begin("sizes of files")
    for command in rows.COMMANDS:
        if command.status != rows.DONE or not command.outputs:
            continue
        longest = max(len(made[name]) for name in command.outputs)
        for is_old in (False, True):
            before, files = laid(command, made, is_old)
            for size in sorted({*range(0, longest, 61), longest - 1, longest}):
                playing.lay(folder, files)
                left = playing.play(folder, [program, *command.words], command.outputs,
                                    preexec_fn=limited(size))
                is_right = wanted.is_end(command, left, made, before) if size >= longest else (
                    wanted.is_fault(command, left, made, before))
                is_right = is_right and playing.is_clean(folder, {**files, **made})
                tally.see(f"{command.words}: {size} bytes", is_right, left)


def streams(tally, program, folder, made):
    """Standard output closed, full, or a pipe that nobody reads; standard error closed."""
    tally.begin("streams")
    for command in rows.COMMANDS:
        before, files = laid(command, made)
        done = wanted.whole(command, made) if command.status == rows.DONE else before
        for kind in ("closed", "full", "broken"):
            playing.lay(folder, files)
            left = shut(program, folder, command, kind)
            want = (rows.FAULT, rows.UNPRINTED, done)
            if command.status != rows.DONE:
                want = (command.status, command.err, done)
            tally.see(f"{command.words}: output {kind}",
                      (left.status, left.err, left.files) == want, left)
        playing.lay(folder, files)
        left = playing.play(folder, ["sh", "-c", 'exec "$@" 2>&-', "sh", program, *command.words],
                            command.outputs)
        status = rows.FAULT if command.status != rows.DONE else rows.DONE
        tally.see(f"{command.words}: errors closed",
                  (left.status, left.out, left.files) == (status, command.out, done), left)


def shut(program, folder, command, kind):
    """Runs the command with a standard output that takes nothing."""
    args = [program, *command.words]
    if kind == "closed":
        return playing.play(folder, ["sh", "-c", 'exec "$@" >&-', "sh", *args], command.outputs)
    if kind == "full":
        with open("/dev/full", "wb") as full:
            return playing.play(folder, args, command.outputs, stdout=full)
    reader, writer = os.pipe()
    os.close(reader)
    try:
        return playing.play(folder, args, command.outputs, stdout=writer)
    finally:
        os.close(writer)


def names(tally, program, folder, made):
    """Names that are no file, of files that may not be read, and longer than a name may be."""
    tally.begin("names")
    usage = playing.play(folder, [program], []).err
    longest = "d/" * 2046 + "a.dst"
    longest = longest[len(longest) - 4096:]
    cases = [
        ("folder.dst", ["show", "folder.dst"], rows.FAULT, rows.unread("folder.dst")),
        ("missing", ["show", "none.dst"], rows.FAULT, rows.unread("none.dst")),
        ("not to be read", ["show", "shut.dst"], rows.FAULT, rows.unread("shut.dst")),
        ("below a file", ["show", "sq.dst/a.dst"], rows.FAULT, rows.unread("sq.dst/a.dst")),
        ("a loop of links", ["show", "loop.dst"], rows.FAULT, rows.unread("loop.dst")),
        ("output is a folder", ["convert", "sq.dst", "folder.dst"], rows.FAULT,
         rows.unwritten("folder.dst")),
        ("output in no folder", ["convert", "sq.dst", "none/a.exp"], rows.FAULT,
         rows.unwritten("none/a.exp")),
        ("output may not be written", ["convert", "sq.dst", "kept.exp"], rows.FAULT,
         rows.unwritten("kept.exp")),
        ("output is a loop", ["convert", "sq.dst", "loop.dst"], rows.FAULT,
         rows.unwritten("loop.dst")),
        ("4,096 bytes", ["show", longest], rows.FAULT, rows.unread(longest)),
        ("4,097 bytes", ["show", "d" + longest], rows.USAGE, usage),
        ("no text", ["show", b"\xff.dst"], rows.USAGE, usage),
    ]
    for what, words, status, err in cases:
        playing.lay(folder, {"sq.dst": made["sq.dst"], "shut.dst": made["sq.dst"], "kept.exp": b"kept"})
        os.chmod(os.path.join(folder, "shut.dst"), 0)
        os.chmod(os.path.join(folder, "kept.exp"), 0o444)
        os.chmod(folder, 0o777)
        os.mkdir(os.path.join(folder, "folder.dst"))
        os.symlink("loop.dst", os.path.join(folder, "loop.dst"))
        left = playing.play(folder, [program, *words], ["sq.dst", "kept.exp"], **nobody())
        want = (status, b"", err, {"sq.dst": made["sq.dst"], "kept.exp": b"kept"})
        known = {"sq.dst", "shut.dst", "kept.exp", "folder.dst", "loop.dst"}
        is_right = (left.status, left.out, left.err, left.files) == want
        tally.see(what, is_right and playing.is_clean(folder, known), left)
        os.rmdir(os.path.join(folder, "folder.dst"))


def nobody():
    """Runs as a user whom permissions hold, where this one is none."""
    return {"user": 65534, "group": 65534, "extra_groups": []} if os.geteuid() == 0 else {}


def links(tally, program, folder, made):
    """An output that is a link, a link to nothing, a pipe, or one name of two."""
    tally.begin("links and pipes")
    words = ["convert", "sq.dst", "out.exp"]
    new = playing_new(program, folder, made, words)
    for what in ("a link", "a link to a link", "a link to nothing", "two names", "a mode"):
        playing.lay(folder, {"sq.dst": made["sq.dst"]})
        real = os.path.join(folder, "real.exp")
        name = os.path.join(folder, "out.exp")
        if what != "a link to nothing":
            with open(real, "wb") as file:
                file.write(playing.OLD)
        if what == "two names":
            os.link(real, name)
        elif what == "a mode":
            os.rename(real, name)
            os.chmod(name, 0o640)
        elif what == "a link to a link":
            os.symlink("real.exp", os.path.join(folder, "mid.exp"))
            os.symlink(os.path.join(folder, "mid.exp"), name)
        else:
            os.symlink("real.exp", name)
        left = playing.play(folder, [program, *words], ["out.exp"])
        is_right = left.status == rows.DONE and left.files["out.exp"] == new
        if what == "a mode":
            is_right = is_right and os.stat(name).st_mode & 0o777 == 0o640
        else:
            is_right = is_right and playing.content(folder, "real.exp") == new
            is_right = is_right and os.path.islink(name) == (what != "two names")
        known = {"sq.dst", "out.exp", "real.exp", "mid.exp"}
        tally.see(what, is_right and playing.is_clean(folder, known), left)
    playing.lay(folder, {"sq.rw": rows.SQUARE})
    os.mkfifo(os.path.join(folder, "cert"))
    reader = subprocess.Popen(["cat", "cert"], cwd=folder, stdout=subprocess.PIPE)
    left = playing.play(folder, [program, "route", "sq.rw", "sq.dst", "cert"], ["sq.dst"])
    taken = reader.communicate(timeout=60)[0]
    tally.see("a pipe", (left.status, taken) == (rows.DONE, rows.SQUARE_CERT), left)
    playing.lay(folder, {})
    left = playing.play(folder, [program, "sample", "75", "/dev/stdout"], [])
    tally.see("standard output", (left.status, left.out) == (
        rows.DONE, rows.SAMPLE + rows.SAMPLE_REPORT), left)


def playing_new(program, folder, made, words):
    playing.lay(folder, {"sq.dst": made["sq.dst"]})
    return playing.play(folder, [program, *words], [words[-1]]).files[words[-1]]


def lines(tally, program, folder, times):
    """Two programs in one shell: each line on their one standard error is complete."""
    tally.begin("lines of two programs")
    playing.lay(folder, {})
    one, two = "o" * 200 + ".dst", "t" * 3000 + "/.dst"
    want = sorted([rows.unread(one), rows.unread(two)])
    for turn in range(times):
        left = playing.play(folder, ["sh", "-c", '"$0" show "$1" & "$0" show "$2" & wait', program, one, two], [])
        tally.see(f"turn {turn}", sorted(left.err.splitlines(True)) == want, left)
