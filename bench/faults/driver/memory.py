"""Faults over files in memory, and refused growths there and over real files."""
import os

import playing
import rows
import wanted


def before_of(command, is_old):
    """What the outputs hold before the command: an old content, or nothing."""
    return {name: playing.OLD if is_old else None for name in command.outputs}


def over_memory(program, folder, command, made, before, faults, env=None):
    """Runs the command over files in memory, where these calls fail: of the store, of both streams."""
    old = [name for name in command.outputs if before[name] is not None]
    files = {name: made[name] for name in command.inputs}
    playing.lay(folder, {**files, **{name: before[name] for name in old}})
    loaded = command.inputs + old
    args = [program, *map(str, faults), str(len(loaded)), *loaded,
            str(len(command.outputs)), *command.outputs, *command.words]
    left = playing.play(folder, args, [], env)
    shown = left.out.split(b"\n")
    if left.status == 9 or len(shown) != len(command.outputs) + 3:
        return left
    parts = [spelled(part[1:]) if part[:1] == b"+" else None for part in shown[:-1]]
    files = dict(zip(command.outputs, parts))
    return playing.Left(left.status, parts[-2], parts[-1], files)


def spelled(letters):
    """The bytes that are shown by two letters each."""
    digits = [letter - ord("a") for letter in letters]
    return bytes(high * 16 + low for high, low in zip(digits[::2], digits[1::2]))


def calls(tally, program, folder, made):
    """Each call of the store refused in turn."""
    tally.begin("calls of the store in memory")
    for command in rows.COMMANDS:
        for is_old in (False, True):
            before = before_of(command, is_old)
            number = 1
            while (end := wanted.after_call(command, number, made, before)) is not None:
                left = over_memory(program, folder, command, made, before, (number, 0, 0))
                line, files = end
                is_right = (left.status, left.out, left.err, left.files) == (
                    rows.FAULT, b"", line, files)
                tally.see(f"{command.words}: call {number}", is_right, left)
                number += 1
            left = over_memory(program, folder, command, made, before, (number, 0, 0))
            is_right = wanted.is_end(command, left, made, before)
            tally.see(f"{command.words}: no call {number}", is_right, left)


def puts(tally, program, folder, made):
    """Each put refused: the report, and the line where a call fails or the command is refused."""
    tally.begin("puts in memory")
    for command in rows.COMMANDS:
        before = before_of(command, True)
        left = over_memory(program, folder, command, made, before, (0, 1, 0))
        if command.status == rows.DONE:
            files = wanted.whole(command, made)
            is_right = (left.status, left.out, left.err, left.files) == (
                rows.FAULT, b"", rows.UNPRINTED, files)
        else:
            is_right = wanted.is_end(command, left, made, before)
        tally.see(f"{command.words}: put on out", is_right, left)
        left = over_memory(program, folder, command, made, before, (1, 0, 1))
        files = before
        end = wanted.after_call(command, 1, made, before)
        if end is not None:
            files = end[1]
        is_right = (left.status, left.out, left.err, left.files) == (
            rows.FAULT, b"", b"", files)
        tally.see(f"{command.words}: call 1 and put on err", is_right, left)


def count(path):
    with open(path) as file:
        return int(file.read())


def growths(tally, program, folder, made, shim, place):
    """Each growth refused in turn, over files in memory."""
    tally.begin("growths in memory")
    for command in rows.COMMANDS:
        before = before_of(command, True)
        env = {"LD_PRELOAD": shim, "REFUSE_COUNT": place}
        over_memory(program, folder, command, made, before, (0, 0, 0), env)
        for number in range(1, count(place) + 1):
            env = {"LD_PRELOAD": shim, "REFUSE_AT": str(number)}
            left = over_memory(program, folder, command, made, before, (0, 0, 0), env)
            is_right = left.status == 9 or wanted.is_end(command, left, made, before) or (
                wanted.is_memory(left, before))
            tally.see(f"{command.words}: growth {number}", is_right, left)


def real_growths(tally, program, folder, made, shim, place):
    """Each growth refused in turn, over real files: memory for a file beside, and for noting a used file, is the store's."""
    tally.begin("growths of the program")
    for command in rows.COMMANDS:
        before = before_of(command, True)
        files = {**{name: made[name] for name in command.inputs}, **before}
        args = [program, *command.words]
        playing.lay(folder, files)
        playing.play(folder, args, [], {"LD_PRELOAD": shim, "REFUSE_COUNT": place})
        for number in range(1, count(place) + 1):
            playing.lay(folder, files)
            env = {"LD_PRELOAD": shim, "REFUSE_AT": str(number)}
            left = playing.play(folder, args, command.outputs, env)
            is_right = (wanted.is_end(command, left, made, before)
                        or wanted.is_memory(left, before)
                        or (left.err.startswith((b"stitch: cannot read ", b"stitch: cannot write "))
                            and wanted.is_fault(command, left, made, before)))
            is_right = is_right and playing.is_clean(folder, files)
            tally.see(f"{command.words}: growth {number}", is_right, left)
