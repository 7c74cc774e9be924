"""The HTML of a page in the Markdown that the documents use: headings, paragraphs, lists, tables, quotations and code."""
import html
import re

SPANS = ((r"`([^`]+)`", r"<code>\1</code>"), (r"\*\*([^*]+)\*\*", r"<strong>\1</strong>"), (r"\*([^*\s][^*]*)\*", r"<em>\1</em>"))


def spans(text):
    """A text with its code, its emphasis and its links. A link to another page becomes its words."""
    codes = []

    def kept(found):
        codes.append(f"<code>{html.escape(found[1])}</code>")
        return f"\0{len(codes) - 1}\0"
    text = html.escape(re.sub(r"`([^`]+)`", kept, text), quote=False)
    text = re.sub(r"\[([^]]+)\]\(#([\w-]+)\)", r'<a href="#\2">\1</a>', text)
    text = re.sub(r"\[([^]]+)\]\([^)]*\)", r"\1", text)
    for form, made in SPANS[1:]:
        text = re.sub(form, made, text)
    return re.sub(r"\0(\d+)\0", lambda found: codes[int(found[1])], text)


def anchor(title):
    """The id of a heading."""
    return re.sub(r"[^\w-]", "", title.lower().replace(" ", "-"))


def table(lines):
    """The HTML of a table."""
    rows = [[cell.replace("\\|", "|").strip() for cell in re.split(r"(?<!\\)\|", line.strip().strip("|"))] for line in lines]
    head = "".join(f"<th>{spans(cell)}</th>" for cell in rows[0])
    body = "".join("<tr>" + "".join(f"<td>{spans(cell)}</td>" for cell in row) + "</tr>" for row in rows[2:])
    return f"<table><thead><tr>{head}</tr></thead><tbody>{body}</tbody></table>"


def listed(lines, kind):
    """The HTML of a list, whose points may go on in further lines."""
    points = re.split(r"\n(?=(?:-|\d+\.) )", "\n".join(lines))
    return f"<{kind}>" + "".join(f"<li>{spans(re.sub(r'^(?:-|[0-9]+[.]) ', '', point))}</li>" for point in points) + f"</{kind}>"


def block(text):
    """The HTML of lines without an empty one between them."""
    lines = text.split("\n")
    heading = re.match(r"(#+) (.*)$", lines[0])
    if heading:
        level = min(len(heading[1]) + 2, 6)
        rest = "\n".join(lines[1:]).strip()
        return f'<h{level} id="{anchor(heading[2])}">{spans(heading[2])}</h{level}>' + (block(rest) if rest else "")
    if lines[0].startswith("|"):
        return table(lines)
    if lines[0].startswith(">"):
        return f"<blockquote>{spans(' '.join(line[1:].strip() for line in lines))}</blockquote>"
    if re.match(r"- ", lines[0]):
        return listed(lines, "ul")
    if re.match(r"\d+\. ", lines[0]):
        return listed(lines, "ol")
    return f"<p>{spans(' '.join(lines))}</p>"


def page_of(text):
    """The HTML of a page."""
    parts = re.split(r"^```\w*\n(.*?)^```\n", text, flags=re.M | re.S)
    made = []
    for k, part in enumerate(parts):
        if k % 2:
            made.append(f"<pre>{html.escape(part)}</pre>")
        else:
            made += [block(one) for one in re.split(r"\n\s*\n", part.strip()) if one.strip()]
    return "\n".join(made)
