"""The properties of the elements of an SVG file, from attributes, styles and style sheets, and their colours."""
import colorsys
import re

SVG = "{http://www.w3.org/2000/svg}"
NUMBER = r"[-+]?[0-9]*\.?[0-9]+(?:[eE][-+]?[0-9]+)?"
# Properties that are inherited, those that aren't, and those that would move a shape; with their first values.
INHERITED = {"stroke": "none", "stroke-opacity": "1", "stroke-width": "1", "fill": "black", "fill-opacity": "1",
             "visibility": "visible", "color": "black"}
OWN = {"display": "inline", "opacity": "1", "clip-path": "none", "mask": "none", "moves": ""}
MOVING = "transform translate rotate scale offset-path d x y cx cy r".split()


class Refused(Exception):
    """What is wrong with a file, or with the element that is read."""


def kind_of(element):
    """The name of an SVG element, and "" for comments and the elements of other vocabularies."""
    tag = element.tag if isinstance(element.tag, str) else "{"
    return tag.replace(SVG, "") if tag.startswith(SVG) or "{" not in tag else ""


def is_illustrators(text):
    """Whether a document says, up to the end of its first tag, that Adobe Illustrator wrote it."""
    head = re.match(r"(?s).*?<svg\b[^>]*>", text)
    return bool(head and re.search("Adobe ?Illustrator", head[0]))


def number(text):
    """A number, or a percentage as a part of 1; None if it is neither."""
    found = re.fullmatch(rf"\s*({NUMBER})\s*(%?)\s*", text)
    return found and float(found[1]) / (100 if found[2] else 1)


def is_clear(opacity):
    """Whether an opacity, or a width, is 0."""
    found = number(opacity)
    return found is not None and found <= 0


def declarations(text):
    """The pairs of a list of CSS properties, each with whether it is important."""
    for part in text.split(";"):
        name, _, value = part.partition(":")
        value, _, important = value.partition("!")
        yield bool(important), name.strip().lower(), value.strip()


def style_rules(root):
    """The rules of all style sheets: for each selector its words, its rank and its declarations."""
    text = "\n".join("".join(sheet.itertext()) for sheet in root.iter() if kind_of(sheet) == "style")
    text = re.sub(r"/\*.*?\*/|<!--|-->|@(?:charset|namespace)[^;]*;|@font-face\s*\{[^{}]*\}", "", text, flags=re.S)
    rules = []
    for selectors, inside in re.findall(r"([^{}]*)\{([^{}]*)\}", text):
        for selector in selectors.split(","):
            words = re.sub(r"\s*>\s*", " > ", selector).split()
            if not all(re.fullmatch(r">|(?:\*|[\w-]+)?(?:[.#][\w-]+)*", word) for word in words) or ">" in words[-1:]:
                raise Refused(f"style sheet: selector {selector.strip()!r} can't be read: use classes and ids")
            rank = (selector.count("#"), selector.count("."), sum(word[0] not in ".#*>" for word in words))
            rules.append((words, rank, list(declarations(inside))))
    if re.sub(r"[^{}]*\{[^{}]*\}", "", text).strip():
        raise Refused("style sheet: it can't be read: use plain rules without @media and @import")
    return rules


def selects(words, element, parents):
    """Whether a selector names an element: its last word the element, and those before it what is around."""
    if not words or element is None:
        return not words
    tag, *marks = re.split(r"(?=[.#])", words[-1])
    classes = element.get("class", "").split()
    if tag not in ("", "*", kind_of(element)) or not all(
            mark[1:] in classes if mark[0] == "." else mark[1:] == element.get("id") for mark in marks):
        return False
    if words[-2:-1] == [">"]:
        return selects(words[:-2], parents.get(element), parents)
    around = parents.get(element)
    while words[:-1] and around is not None and not selects(words[:-1], around, parents):
        around = parents.get(around)
    return not words[:-1] or around is not None


def function_colour(form, words):
    """Red, green, blue and alpha, each 0 to 255, of the words in a call of rgb or hsl; None if they can't be read."""
    parts = [number(word.replace("deg", "")) for word in words]
    if len(parts) not in (3, 4) or None in parts:
        return None
    alpha = parts[3] if len(parts) == 4 else 1
    if form == "hsl":
        parts = colorsys.hls_to_rgb(parts[0] / 360 % 1, min(max(parts[2], 0), 1), min(max(parts[1], 0), 1))
    else:
        parts = [part if "%" in word else part / 255 for part, word in zip(parts, words)]
    return tuple(int(min(max(part, 0), 1) * 255 + 0.5) for part in (*parts[:3], alpha))


def colour_of(text, library):
    """Red, green, blue and alpha, each 0 to 255, or None for no colour."""
    text = text.strip().lower()
    if text in ("none", "transparent"):
        return None if text == "none" else (0, 0, 0, 0)
    call = re.fullmatch(r"(rgb|hsl)a?\(([^()]*)\)", text)
    if call:
        colour = function_colour(call[1], re.split(r"\s*[,/]\s*|\s+", call[2].strip()))
        if not colour:
            raise Refused(f"colour {text!r} can't be read")
        return colour
    if re.fullmatch(r"#(?:[0-9a-f]{3,4}|[0-9a-f]{6}|[0-9a-f]{8})", text):
        digits = text[1:] if len(text) > 5 else "".join(2 * digit for digit in text[1:])
        return tuple(bytes.fromhex(digits.ljust(8, "f")))
    colour = library.named_colour(text)
    if not colour:
        raise Refused(f"colour {text[:40]!r} can't be read: give it a flat colour (Object > Fill and Stroke)")
    return (*colour, 255)


def painted(style, name, library):
    """The colour of a stroke or a fill, "transparent", or None."""
    text = style["color"] if style[name].lower() == "currentcolor" else style[name]
    colour = colour_of(text, library)
    if colour and (not colour[3] or is_clear(style[name + "-opacity"])):
        return "transparent"
    return colour and colour[:3]


def style_of(element, around, rules, parents):
    """The properties of an element: from its attributes, style sheets and style, or from those around it."""
    found = [(False, (-1,), name, element.get(name)) for name in (*INHERITED, *OWN, "transform-origin") if element.get(name)]
    for words, rank, inside in rules:
        if selects(words, element, parents):
            found += [(important, rank, name, value) for important, name, value in inside]
    found += [(important, (9999,), name, value) for important, name, value in declarations(element.get("style", ""))]
    style = {**around, **OWN}
    for _, _, name, value in sorted(found, key=lambda one: one[:2]):
        if name in MOVING and value not in ("", "none") or name == "transform-origin" and element.get("transform"):
            style["moves"] = name
        elif name in style and value:
            style[name] = around.get(name, OWN.get(name)) if value in ("inherit", "unset") else value
    return style
