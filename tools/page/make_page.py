#!/usr/bin/env python3
"""Writes the page, one file that needs nothing else: make_page.py MODULE.wasm PAGE.html

In place of the module a page may be named, whose module is taken: `make_page.py release/gvr.html PAGE.html` shows a change
of the page's texts and scripts with no build."""
import base64
import gzip
import hashlib
import json
import pathlib
import re
import sys

import pages
import statements
import tour

HERE = pathlib.Path(__file__).resolve().parent
TOP = HERE.parent.parent
# The script of the page, in this order.
SCRIPTS = ["page", "editor", "refusal", "teach"]


def comments(text):
    """What the comments of an example say behind its question."""
    lines = [it[2:] for it in text.splitlines() if it.startswith("# ") and not it.startswith("# run ")]
    return [" ".join(lines[1:])] if lines[1:] else []


def example(folder, name, question, chapter=None):
    """An example with its question, its answer and what to change: those of its chapter, or what its text says."""
    text = (TOP / folder / f"{name}.gvr").read_text()
    return {"name": name, "question": question, "text": text, **(chapter or {"answer": comments(text), "changes": []})}


def examples():
    """The examples in the order of their list, by its groups, and behind them the patterns."""
    groups, told = [], tour.chapters()
    for name, question in statements.rows((TOP / "examples/README.md").read_text()):
        if group := re.fullmatch(r"\*\*(.*)\*\*", name):
            groups.append({"title": group[1], "examples": []})
        else:
            name = name.strip("`")
            groups[-1]["examples"].append(example("examples", name, question, told.get(name)))
    patterns = statements.rows((TOP / "examples/patterns/README.md").read_text())
    those = [example("examples/patterns", name.strip("`"), question) for name, question, _ in patterns]
    return [*groups, {"title": "Patterns", "examples": those}]


def shown(text):
    """A text as EXPLAIN has it between backticks: a bar ends a line. One in quotes is an expression of Python, and no text."""
    return None if text.startswith('"') else text.replace("|", "\n") + "\n"


def explain():
    """The entries of EXPLAIN on the reasons, by their numbers: since when it is, the text and the mended one, where they are
    texts."""
    found = {}
    for told, _, refused, since, mended in statements.rows(statements.section("EXPLAIN", "The reasons")):
        number, _, title = told.partition(" ")
        texts = [("refused", shown(refused.strip("`"))), ("mended", shown(mended.strip("`")))]
        found[int(number)] = {"title": title, "parts": [["text", since], *([kind, it] for kind, it in texts if it)]}
    return found


def version():
    """What the page says of itself."""
    told = re.search(r"^## (\d+(?:\.\d+)+)", (TOP / "CHANGELOG.md").read_text(), re.M)
    return f"gvr {told[1]}." if told else ""


def words():
    """The words of the language."""
    told = (TOP / "crates/scenario_keywords/src/keyword.rt").read_text()
    return sorted(it for it in set(re.findall(r'b"(\S+)"', told)) if re.fullmatch(r"[A-Za-z]+", it))


def packed(data):
    return base64.b64encode(gzip.compress(data, 9, mtime=0)).decode()


def module(file):
    """The module of a file, or of a page that has one."""
    if file.suffix != ".html":
        return file.read_bytes()
    inside = re.search(r'<script [^>]*id="wasm">([^<]*)</script>', file.read_text())
    return gzip.decompress(base64.b64decode(inside[1]))


def main():
    read = lambda name: (HERE / name).read_text()
    # A text with a tag's end in it would end its element.
    told = lambda it: json.dumps(it).replace("<", "\\u003c")
    script = "".join(read(f"{it}.js") for it in SCRIPTS) + "const opened = open();\n"
    parts = {
        "STYLE": read("page.css"),
        "EXAMPLES": told(examples()),
        "EXPLAIN": told(explain()),
        "STATEMENTS": told(statements.statements()),
        "CURES": told(statements.cures()),
        "WORDS": told(words()),
        "PAGES": packed(pages.pages().encode()),
        "WASM": packed(module(pathlib.Path(sys.argv[1]))),
        "WORKER": read("picture.js") + read("source.js") + read("worker.js"),
        "SCRIPT": script,
    }
    page = read("page.html").replace("PAGE_LINKS", pages.links()).replace("VERSION", version())
    for name, text in parts.items():
        if "</script" in text or page.count(f">{name}<") != 1:
            sys.exit(f"make_page: {name} has no one place, or ends its element")
        page = page.replace(f">{name}<", f">{text}<")
    mark = base64.b64encode(hashlib.sha256(script.encode()).digest()).decode()
    pathlib.Path(sys.argv[2]).write_text(page.replace("SCRIPT_HASH", f"sha256-{mark}", 1))


if __name__ == "__main__":
    main()
