"""The results that a command may have where a call of the outside fails or memory is refused."""
import rows


def whole(command, made):
    """The files of a command that is done: fixed contents, and for the rest what was made."""
    return {name: made[name] for name in command.outputs}


def after_call(command, number, made, before):
    """Where the store's call of that number fails, over files in memory: the line and the files, or None
    where there is no such call."""
    reads = rows.READ_CALLS * len(command.inputs)
    if number <= reads:
        return rows.unread(command.inputs[(number - 1) // rows.READ_CALLS]), dict(before)
    if command.status != rows.DONE or number > reads + 2 * len(command.outputs):
        return None
    place, is_append = divmod(number - reads - 1, 2)
    files = dict(before)
    for name in command.outputs[:place]:
        files[name] = made[name]
    if is_append:
        files[command.outputs[place]] = b""
    return rows.unwritten(command.outputs[place]), files


def real_faults(command, made, before):
    """The lines and files with which a fault may end over real files: each output is the old file or the
    entire new one, those before the one that failed are new and those after it old."""
    ends = [(rows.unread(name), dict(before), b"") for name in command.inputs]
    if command.status != rows.DONE:
        return ends
    files = dict(before)
    for name in command.outputs:
        ends.append((rows.unwritten(name), dict(files), b""))
        files = {**files, name: made[name]}
    ends.append((rows.UNPRINTED, dict(files), command.out))
    return ends


def is_end(command, left, made, before):
    """The run ended as if nothing had failed."""
    files = whole(command, made) if command.status == rows.DONE else before
    return (left.status, left.out, left.err, left.files) == (
        command.status, command.out, command.err, files)


def is_fault(command, left, made, before):
    """The run ended with a fault, whose line reports what failed, with a permitted result."""
    return left.status == rows.FAULT and any(
        left.err == line and left.files == files and report.startswith(left.out)
        for line, files, report in real_faults(command, made, before))


def is_memory(left, before):
    """The run ended out of memory: nothing was written or printed."""
    return (left.status, left.out, left.err, left.files) == (
        rows.MEMORY, b"", rows.NO_MEMORY, before)
