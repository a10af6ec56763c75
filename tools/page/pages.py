"""The pages of docs/ as markup for the page: headings, paragraphs, lists, tables and blocks of text."""
import html
import pathlib
import re
from typing import List, Tuple

from statements import cells

TOP = pathlib.Path(__file__).resolve().parent.parent.parent
# The pages that the page has in it, with what a link to each says.
SHOWN = {
    "TOUR": "Tour",
    "LANGUAGE": "Language",
    "TRACE": "Traces",
    "MACHINE": "Machine",
    "FROM_GEVENT": "From gevent",
    "EXPLAIN": "Explain",
    "PROVED": "Proved",
}


def anchor(heading: str) -> str:
    """What a link to a heading names."""
    return re.sub(r"[^\w -]", "", heading.lower()).replace(" ", "-")


def link(told: Tuple[str, str], page: str) -> str:
    """A link: to another page that is in here, or its text alone."""
    text, target = told
    name, _, heading = target.partition("#")
    other = re.fullmatch(r"(?:docs/)?(\w+)\.md", name)
    to = other[1] if other else page if not name else ""
    return f'<a href="#page:{to}:{heading}">{text}</a>' if to in SHOWN else text


def inline(text: str, page: str) -> str:
    """A text with its links, code, stress and weight."""
    text = html.escape(re.sub(r"!\[[^\]]*\]\([^)]*\)", "", text), quote=False)
    codes = re.findall(r"`([^`]*)`", text)
    # What stands between backticks is put aside, so that nothing in it is read as a sign.
    whole = re.sub(r"`[^`]*`", "\0", text)
    whole = re.sub(r"\[([^\]]*)\]\(([^)\s]*)\)", lambda it: link((it[1], it[2]), page), whole)
    whole = re.sub(r"\*\*([^*]+)\*\*", r"<b>\1</b>", whole)
    whole = re.sub(r"(?<![\w*])\*([^*]+)\*(?![\w*])", r"<em>\1</em>", whole)
    return re.sub("\0", lambda _: f"<code>{codes.pop(0)}</code>", whole)


def table(lines: List[str], page: str) -> str:
    """A table, with a head where it has one."""
    rows = [cells(it) for it in lines if not re.fullmatch(r"[|\- :]+", it)]
    has_head = len(rows) > 1 and any(rows[0])
    made = []
    for at, row in enumerate(rows if any(rows[0]) else rows[1:]):
        kind = "th" if has_head and at == 0 else "td"
        made.append("<tr>" + "".join(f"<{kind}>{inline(it, page)}</{kind}>" for it in row) + "</tr>")
    return f"<table>{''.join(made)}</table>"


def listed(text: str, page: str) -> str:
    """The items of a list."""
    kind = "ol" if text[0].isdigit() else "ul"
    items = re.split(r"^(?:[-*]|\d+\.) ", text, flags=re.M)[1:]
    return f"<{kind}>" + "".join(f"<li>{inline(' '.join(it.split()), page)}</li>" for it in items) + f"</{kind}>"


def block(text: str, page: str) -> str:
    """The markup of one block of lines."""
    if head := re.match(r"(#+) (.*)$", text):
        depth = min(len(head[1]) + 1, 4)
        name = f"{page}:{anchor(head[2])}"
        rest = text[head.end() :].strip("\n")
        return f'<h{depth} id="{name}">{inline(head[2], page)}</h{depth}>' + (block(rest, page) if rest else "")
    lines = text.split("\n")
    if all(it.startswith("|") for it in lines):
        return table(lines, page)
    if all(it.startswith("    ") for it in lines):
        return "<pre>" + html.escape("\n".join(it[4:] for it in lines), quote=False) + "</pre>"
    if re.match(r"[-*] |\d+\. ", text):
        return listed(text, page)
    return f"<p>{inline(' '.join(text.split()), page)}</p>"


def markup(name: str) -> str:
    """A page of docs/ as an article."""
    made = []
    for part in re.split(r"^(```.*\n(?:.*\n)*?```)$", (TOP / f"docs/{name}.md").read_text(), flags=re.M):
        if part.startswith("```"):
            made.append("<pre>" + html.escape(part.partition("\n")[2].rpartition("\n")[0], quote=False) + "</pre>")
        else:
            made += [block(it.strip("\n"), name) for it in re.split(r"\n{2,}", part) if it.strip()]
    return f'<article id="page:{name}" hidden>\n' + "\n".join(it for it in made if it != "<p></p>") + "\n</article>"


def pages() -> str:
    return "\n".join(markup(it) for it in SHOWN)


def links() -> str:
    return "\n".join(f'<a href="#page:{name}:">{text}</a>' for name, text in SHOWN.items())
