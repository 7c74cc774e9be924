"""Checks the instructions of the program against those in the document. Measures no time."""

import building
import counting
import document
import routes
import tables
import worst
from building import say
from cases import CHECKED, all_cases

# How many times the instructions of the document a run may take.
MOST = 1.03


def kept_counts():
    """Millions of instructions in the document, by the name of the row."""
    counts = {}
    for heading, row in document.rows("measured"):
        if tables.COUNTED in row:
            counts[f"{row['Case']}, {heading}"] = row[tables.COUNTED]
    for _, row in document.rows("routes"):
        if tables.COUNTED in row:
            counts[route_name(row["Drawing"], row["Lines"])] = row[tables.COUNTED]
    for _, row in document.rows("worst"):
        if tables.COUNTED in row:
            counts[worst_name(row["Command"], row["Input"])] = row[tables.COUNTED]
    return {name: float(text.replace(",", "")) for name, text in counts.items() if text != "–"}


def route_name(drawing, lines):
    return f"route of {drawing}, lines {lines}"


def worst_name(command, name):
    return f"{command}: {name}"


def compare_totals(chosen, stitch):
    """Compares each total with LEMON's, where LEMON is here. Fails where one differs."""
    if not routes.can_measure():
        say(f"{routes.MISSING}: no totals of routes are compared")
        return
    routes.build()
    for route in chosen:
        route.measure(stitch)
    say(f"all totals of {len(chosen)} routes are equal")


def rows_of(stitch):
    """The name and the arguments of each run that is counted."""
    building.build_plain("inputs")
    building.make_inputs(CHECKED)
    chosen = routes.routes(stitch, "", CHECKED.lines)
    compare_totals(chosen, stitch)
    rows = [(f"{case.name}, {tables.heading(case.size, CHECKED)}", case.words) for case in all_cases(CHECKED)]
    return rows + [(route_name(route.name, f"{route.lines:,}"), route.words) for route in chosen]


def is_above(now, kept):
    return kept is not None and now > kept * MOST


def judged(name, now, kept):
    """What is to be said of a row: that it has no figure, that it takes more, or nothing."""
    if kept is None:
        return f"{name}: {now:.3f} million, no figure in the document"
    if is_above(now, kept):
        return f"{name}: {now:.3f} million, {now / kept:.3f} times the {kept} of the document"
    return ""


def report(found):
    """Prints all rows, and names those that take more or have no figure. The number of rows that take more."""
    print(tables.check_table(found))
    for text in filter(None, [judged(*row) for row in found]):
        say(text)
    above = sum(is_above(now, kept) for _, now, kept in found)
    say(f"{above} of {len(found)} rows take more than the document has")
    return above


def check(programs):
    """The status: 1 where a row takes more than the document has, 127 where nothing can be counted. The programs are
    `stitch` and its companions by their names."""
    stitch = programs["stitch"]
    if not counting.can_count():
        say(f"{counting.MISSING}: nothing can be checked")
        return 127
    rows, kept = rows_of(stitch), kept_counts()
    say(f"counting instructions of {len(rows)} rows")
    counts = counting.instructions_of_all([(stitch, words) for _, words in rows])
    found = [(name, count / 1e6, kept.get(name)) for (name, _), count in zip(rows, counts)]
    chosen = [run for run in worst.all_runs(programs) if worst_name(run.command, run.name) in kept]
    for run, count in worst.counted(chosen).items():
        name = worst_name(run.command, run.name)
        found.append((name, count, kept[name]))
    return 1 if report(found) else 0
