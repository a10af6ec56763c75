"""The column of the page that has the words of the language: what LANGUAGE writes, what it does, and a text to put in."""
import pathlib
import re
from typing import Any, Dict, List

TOP = pathlib.Path(__file__).resolve().parent.parent.parent
# What a click puts in; a bar ends a line. It stands for the first word of what LANGUAGE has under "Written".
PUT = {
    "event": "event e",
    "result": "result r",
    "sem": "sem s 1",
    "bsem": "bsem s 1",
    "rlock": "rlock l",
    "queue": "queue q fifo none",
    "group": "group g",
    "pool": "pool p 2",
    "native": "native n 2",
    "channel": "channel c",
    "def": "def w|  sleep 1|end",
    "rawdef": "rawdef r v|  return v|end",
    "print": "print 1",
    "let": "let i 0",
    "return": "return none",
    "raise": "raise Error 1",
    "if": "if true|  print 1|else|  print 2|end",
    "while": "while < i 3|  let i + i 1|end",
    "try": "try|  sleep 10|except any f|  print f|end",
    "timeout": "timeout 10|  sleep 20|end",
    "spawn": "a <- spawn w",
    "spawnlater": "a <- spawnlater 5 w",
    "new": "a <- new w",
    "start": "start a",
    "link": "link a ended",
    "linkvalue": "linkvalue a ended",
    "linkfault": "linkfault a ended",
    "rawlink": "rawlink a mark 1",
    "unlink": "unlink 1",
    "sleep": "sleep 10",
    "join": "join a",
    "get": "x <- get a",
    "kill": "kill a",
    "joinall": "done <- joinall list 1 a",
    "killall": "killall list 1 a",
    "set": "set e",
    "clear": "clear e",
    "wait": "x <- wait e within 10",
    "rset": "rset r 1",
    "rfail": "rfail r Error 1",
    "rget": "x <- rget r",
    "rwait": "x <- rwait r",
    "acquire": "acquire s",
    "release": "release s",
    "qput": "qput q 1",
    "qget": "x <- qget q",
    "qpeek": "x <- qpeek q",
    "qdone": "qdone q",
    "qjoin": "qjoin q",
    "qshut": "qshut q",
    "cput": "cput c 1",
    "cget": "x <- cget c",
    "gspawn": "a <- gspawn g w",
    "gjoin": "gjoin g",
    "gkill": "gkill g",
    "map": "l <- map g f list 2 1 2",
    "nspawn": "j <- nspawn n sum 10",
    "raw": "h <- raw r",
    "switch": "x <- switch h 1",
    "throw": "x <- throw h",
    "setparent": "setparent h self",
}
# Expressions, by what stands first in their row. They are put in where the caret stands.
EXPRESSIONS = {
    "none": "none",
    "self": "self",
    "GreenletExit": "GreenletExit",
    "+ a b": "+ 1 2",
    "/ a b": "/ 7 2",
    "== a b": "== 1 1",
    "< a b": "< 1 2",
    "not a": "not true",
    "list N a..": "list 2 1 2",
    "push a b": "push list 0 1",
    "ready a": "ready a",
    "value a": "value a",
    "isset NAME": "isset e",
    "counter NAME": "counter s",
}


def cells(line: str) -> List[str]:
    """The cells of a row of a table; a bar between backticks is none that parts two cells."""
    return [it.replace("\\|", "|").strip() for it in re.split(r"(?<!\\)\|", line.strip().strip("|"))]


def rows(text: str) -> List[List[str]]:
    """The rows of the tables of a section, without heads and rules."""
    lines = [it for it in text.split("\n") if it.startswith("|")]
    heads = {at - 1 for at, it in enumerate(lines) if re.fullmatch(r"[|\- ]+", it)}
    return [cells(it) for at, it in enumerate(lines) if at not in heads and at - 1 not in heads]


def section(page: str, heading: str) -> str:
    """What stands in a page of docs/ between a heading of the second level and the next one."""
    return (TOP / f"docs/{page}.md").read_text().partition(f"\n## {heading}\n")[2].partition("\n## ")[0]


def plain(text: str) -> str:
    """A cell without the addresses of its links."""
    return re.sub(r"\[([^\]]*)\]\([^)]*\)", r"\1", text)


def forms(written: str) -> Dict[str, str]:
    """The forms between backticks, each with its first word; of two with the same word the first."""
    found: Dict[str, str] = {}
    for form in re.findall(r"`([^`]*)`", written):
        word = re.sub(r"^\w+ <- ", "", form).split(" ")[0]
        if word in PUT and (" " in form or word == "try"):
            found.setdefault(word, form)
    return found


def statements() -> List[Dict[str, Any]]:
    """The groups of the column: a title, and rows of a written form, what it does, and what a click puts in."""
    text = (TOP / "docs/LANGUAGE.md").read_text()
    parts = re.split(r"^##+ (.*)\n", text, flags=re.M)
    sections = dict(zip(parts[1::2], parts[2::2]))
    groups: List[Dict[str, Any]] = []
    for title in ["Declarations", *list(sections)[list(sections).index("Statements") + 1 : list(sections).index("Limits")]]:
        told = [(form, plain(row[1]), PUT[word]) for row in rows(sections[title]) for word, form in forms(row[0]).items()]
        groups.append({"title": title, "rows": told})
    shown = [(row[0].split(", ")[0].strip("`"), f"{row[0]}: {plain(row[1])}") for row in rows(sections["Expressions"])]
    return [*groups, {"title": "Expressions", "rows": [(form, does, EXPRESSIONS[form]) for form, does in shown]}]


def texts(cell: str) -> List[str]:
    """What stands between backticks in a cell."""
    return re.findall(r"`([^`]*)`", cell)


def cures() -> List[Dict[str, Any]]:
    """What newcomers write first, by EXPLAIN: texts, the reason, since when it is none, and what to write."""
    found = []
    for row in rows(section("EXPLAIN", "You wrote, it says, write")):
        reason = re.match(r"\d+", row[1])
        number = int(reason[0]) if reason else 0
        found.append({"wrote": texts(row[0]), "reason": number, "since": row[2], "write": texts(row[3])})
    return found
