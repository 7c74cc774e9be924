"""One script of a script and all modules that it imports, each in a function of its own."""
import json
import re

IMPORT = re.compile(r'^import (?:\{ ([\w, ]+) \}|(\w+)) from "(\.{1,2}/[\w.]+)";\n', re.M)
EXPORT = re.compile(r"^export (?=(?:async )?(?:const|function|class) (\w+))", re.M)


class Unbundled(Exception):
    """Why the page can't be made."""


def bundled(path):
    """The script of a file, after the modules that it imports, each before those that import it."""
    order, parts = [], {}
    add(path, order, parts, ())
    return '"use strict";\n' + "".join(parts[name] for name in order)


def add(path, order, parts, above):
    """Adds a module after those that it imports. A cycle is refused."""
    if path.name in parts:
        return
    if path.name in above:
        raise Unbundled(f"{path.name} imports itself by {', '.join(above)}")
    source = path.read_text()
    for found in IMPORT.finditer(source):
        add(path.parent / found[3], order, parts, (*above, path.name))
    parts[path.name] = wrapped(path, source)
    order.append(path.name)


def variable(name):
    """The variable that has what a module exports."""
    return "$" + re.sub(r"\W", "_", name.split("/")[-1])


def wrapped(path, source):
    """A module as a function whose result is what it exports."""
    if path.suffix == ".json":
        return f"const {variable(path.name)} = {{ whole: {json.dumps(json.loads(source), ensure_ascii=False)} }};\n"
    exported = [found[1] for found in EXPORT.finditer(source)]
    body = IMPORT.sub(lambda found: f"const {{ {found[1] or 'whole: ' + found[2]} }} = {variable(found[3])};\n", source)
    if re.search(r"^(import|export default)\b", body, re.M):
        raise Unbundled(f"{path.name} has an import or an export of another form")
    return (f"const {variable(path.name)} = (() => {{\n{EXPORT.sub('', body)}return {{ {', '.join(exported)} }};\n}})();\n")
