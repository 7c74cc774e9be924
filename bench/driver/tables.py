"""The Markdown with what was measured."""

from cases import FORMATS

HIGHEST_RATIO = 1.2
HIGHEST_GROWTH = 12.0
HIGHEST_START = 2.0
# A jump through a table that is taken less than once in this number of commands costs nothing that can be measured.
COMMANDS_A_JUMP = 10
# The head of the column that --check reads.
COUNTED = "Stitch, instructions, million"


def marked(number, limit, digits=2):
    """A number, bold where it is above its limit."""
    text = f"{number:.{digits}f}"
    return f"**{text}**" if float(text) > limit else text


def table(heads, rows):
    lines = ["| " + " | ".join(heads) + " |", "|---" + "|---:" * (len(heads) - 1) + "|"]
    lines += ["| " + " | ".join(row) + " |" for row in rows]
    return "\n".join(lines)


def jumped(count, commands):
    """The jumps through a table of a run; where they are many, bold, with the function that takes the most."""
    if count.jumps is None:
        return "–"
    if count.jumps * COMMANDS_A_JUMP <= commands:
        return f"{count.jumps:,}"
    return f"**{count.jumps:,}** in `{count.jumper}`"


def counted(counts, commands):
    """Millions of instructions of both programs, their ratio and the jumps of ours, where they were counted."""
    if not counts:
        return ["–", "–", "–", "–"]
    ours, theirs = counts
    ratio = marked(ours.instructions / theirs.instructions, HIGHEST_RATIO)
    millions = [f"{count.instructions / 1e6:.1f}" for count in counts]
    return [*millions, ratio, jumped(ours, commands)]


def cost_row(case, costs, counts, commands):
    ours, theirs = costs
    return [
        case.name,
        f"{ours.cpu:.4f}",
        f"{theirs.cpu:.4f}",
        marked(ours.cpu / theirs.cpu, HIGHEST_RATIO),
        *counted(counts, commands),
        f"{ours.peak:.1f}",
        f"{theirs.peak:.1f}",
        marked(ours.peak / theirs.peak, HIGHEST_RATIO),
    ]


def cost_table(measured, counts, commands):
    heads = ["Case", "Stitch, cpu s", "plain, cpu s", "ratio"]
    heads += [COUNTED, "plain", "ratio", "Stitch, table jumps"]
    heads += ["Stitch, peak MB", "plain, peak MB", "ratio"]
    rows = [cost_row(case, costs, counts.get(case), commands) for case, costs in measured]
    return table(heads, rows)


def growth_table(measured, middle, largest):
    """How cpu time grows from the middle size to the largest."""
    by_size = {(case.name, case.size): costs for case, costs in measured}
    rows = []
    for name, size in by_size:
        if size != largest or (name, middle) not in by_size:
            continue
        high, low = by_size[name, largest], by_size[name, middle]
        growths = [high[side].cpu / low[side].cpu for side in (0, 1)]
        rows.append([name, marked(growths[0], HIGHEST_GROWTH, 1), f"{growths[1]:.1f}"])
    return table(["Case", "Stitch", "plain"], rows)


def input_table(sizes, commands_of):
    heads = ["Commands in a file"] + FORMATS + ["wide pes"]
    rows = []
    for size in sizes.commands:
        names = [f"{size}.{ext}" for ext in FORMATS] + [f"wide-{size}.pes"]
        rows.append([f"{size:,}"] + [f"{commands_of(name):,}" for name in names])
    return table(heads, rows)


def start_table(starts):
    rows = [[name, marked(median, HIGHEST_START), f"{least:.2f}"] for name, (median, least) in starts]
    return table(["Start, without arguments", "median ms", "least ms"], rows)


def heading(size, sizes):
    """The heading above the cases of a size, or above those that don't come in sizes."""
    return f"{size:,} commands" if size else f"{sizes.stops:,} stops, and {sizes.bytes:,} hostile bytes"


def check_table(found):
    """The rows that were checked: millions of instructions in the document and now, and their ratio."""
    rows = [[name, f"{kept or '–'}", f"{now:.3f}", f"{now / kept:.3f}" if kept else "–"] for name, now, kept in found]
    return table(["Row", "document", "now", "ratio"], rows)


def report(head, sizes, starts, measured, counts, commands_of):
    parts = [head, start_table(starts), input_table(sizes, commands_of)]
    for size in reversed(sizes.commands):
        chosen = [(case, costs) for case, costs in measured if case.size == size]
        if chosen:
            parts += [f"### {heading(size, sizes)}", cost_table(chosen, counts, size)]
    chosen = [(case, costs) for case, costs in measured if case.size is None]
    if chosen:
        parts += [f"### {heading(None, sizes)}", cost_table(chosen, counts, sizes.stops)]
    middle, largest = sizes.commands[1:]
    parts += [f"### Growth of cpu time from {middle:,} to {largest:,}", growth_table(measured, middle, largest)]
    return "\n\n".join(parts) + "\n"
