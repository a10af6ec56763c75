"""What TOUR says of an example, and the texts that its changes make. The page and tools/check_docs read it by this."""
import pathlib
import re
from typing import Any, Dict, Iterator, List, Optional, Set, Tuple

TOP = pathlib.Path(__file__).resolve().parent.parent.parent
OPENS = ("def", "rawdef", "if", "while", "try", "timeout")
GOES_ON = ("else", "except", "finally")


def changed(lines: List[str], edits: str) -> Optional[Tuple[List[str], Optional[List[str]]]]:
    """These lines after the edits of a sentence, and the words that it wants, if any; nothing where it has another form."""
    words: Optional[List[str]] = None
    for edit in re.split(r", and (?=write|take|run)", edits[:1].lower() + edits[1:]):
        put = re.fullmatch(r"(?:then )?write `([^`]*)` (in place of|behind)( the second)? `([^`]*)`", edit)
        away = re.fullmatch(r"(?:then )?take `([^`]*)` away", edit)
        if words_so := re.fullmatch(r"run it with `([^`]*)`", edit):
            words = ["run", *words_so[1].split()]
            continue
        if not put and not away:
            return None
        old = (put[4] if put else away[1] if away else "").split("|")
        new = put[1].split("|") if put else []
        places = [at for at in range(len(lines)) if lines[at : at + len(old)] == old]
        which = 1 if put and put[3] else 0
        if len(places) <= which:
            return None
        at = places[which] + (len(old) if put and put[2] == "behind" else 0)
        lines = lines[:at] + new + lines[at if put and put[2] == "behind" else at + len(old) :]
    return lines, words


def parts(sentence: str) -> List[Tuple[str, str, str]]:
    """The changes that a sentence tells: of each the edits, why, and what comes of it. Nothing where it has another form."""
    found = re.findall(r"(.*?): (.*?)\(`([^`]*)`\)\. ?", sentence)
    return found if "".join(f"{a}: {b}(`{c}`). " for a, b, c in found).rstrip() == sentence else []


def outcome(trace: str) -> str:
    """The numbers that were printed, each with its greenlet, and the end; a greenlet that a link called is `link`."""
    links: Set[str] = set()
    told: List[str] = []
    for line in trace.splitlines():
        words = line.split(" ")
        if words[0] == "link" and words[3] == "mark":
            told.append(f"mark {words[4]}")
        elif words[0] == "link" and words[3] != "set":
            links.add(words[3])
        elif words[0] == "print":
            told.append(" ".join(["link" if words[1] in links else words[1], *words[2:]]))
        elif words[0] == "stop":
            cause = line[len("stop ") : line.index(" turns ")]
            told.append("end" if cause == "value none" else f"end: {cause}")
    return "; ".join(told)


def indented(lines: List[str]) -> List[str]:
    """Lines of a scenario with two blanks for each block that is open."""
    depth = 0
    written: List[str] = []
    for line in lines:
        word = line.split(" ")[0]
        depth -= word == "end"
        written.append("  " * (depth - (word in GOES_ON)) + line)
        depth += word in OPENS
    return written


def chapters() -> Dict[str, Dict[str, Any]]:
    """The chapters of scenarios by their examples: heading, question, answer in paragraphs, and the changes."""
    found: Dict[str, Dict[str, Any]] = {}
    for chapter in (TOP / "docs/TOUR.md").read_text().split("\n## ")[1:]:
        named = re.search(r"^```beside (\w+).*\n(?:.*\n)*?```$", chapter, re.M)
        told = re.search(r"^\*Change this and see\.\* ((?:.+\n)+)", chapter, re.M)
        if not named or not told:
            continue
        answer = [" ".join(it.split()) for it in chapter[named.end() : told.start()].split("\n\n") if it.strip()]
        found[named[1]] = {
            "title": chapter.partition("\n")[0],
            "answer": [it for it in answer if not it.startswith("![")],
            "changes": list(changes(named[1], " ".join(told[1].split()))),
        }
    return found


def changes(name: str, sentence: str) -> Iterator[Dict[str, str]]:
    """Each change with its text: the first comments of the example stay, the words of a first line are those it wants."""
    text = (TOP / f"examples/{name}.gvr").read_text()
    first = re.match(r"# (run .*)\n", text)
    words = first[1].split() if first else None
    lines = [it.strip() for it in text.splitlines() if it.strip() and not it.strip().startswith("#")]
    for edits, why, comes in parts(sentence):
        made = changed(lines, edits)
        if made is None:
            raise ValueError(f"the change of {name} can't be made: {edits}")
        lines, words = made[0], made[1] or words
        head = f"# {' '.join(words)}\n" if words else ""
        yield {"edits": edits, "why": why.strip(), "outcome": comes, "text": head + "\n".join(indented(lines)) + "\n"}
