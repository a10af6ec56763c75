#!/usr/bin/env python3
"""Puts the page that ./page has made into release/, with a README that says what it is: tools/page/release.py"""
import hashlib
import re
import shutil
import subprocess
import sys
from pathlib import Path
from typing import Dict, List

TOP = Path(__file__).resolve().parents[2]
sys.path.insert(0, str(TOP / "tools"))
import crates  # noqa: E402
import pages  # noqa: E402

MADE = TOP / "crates/gvr_page/out/gvr.html"
RELEASED, README = TOP / "release/gvr.html", TOP / "release/README"
TEXT = """\
gvr.html answers scenarios of greenlets in a browser: open it. It is one file, and needs no server, no network and
nothing that is installed. ../README.md says what gvr is, and ../docs/PROVED.md what of this page is proved.

commit    {commit}
kit       {kit}
page      sha256 {page}
sources   sha256 {sources}

The commit is the one whose files it was made of. To make it again you need that kit:

    ./build && ./page && tools/page/release.py
"""


def sources() -> List[Path]:
    """What the page is made from: the code of its crates, the texts that it shows, and what puts them together."""
    code = [it for crate in crates.crates_below("gvr_page") for it in (TOP / "crates" / crate / "src").rglob("*.rt")]
    lists = [TOP / "examples" / it for it in ("README.md", "patterns/README.md")]
    examples = [it for folder in ("examples", "examples/patterns") for it in (TOP / folder).glob("*.gvr")]
    texts = [*lists, *examples, *(TOP / f"docs/{it}.md" for it in pages.SHOWN)]
    tools = [it for it in (TOP / "tools/page").iterdir() if it.suffix in (".c", ".css", ".html", ".js")]
    tools += [TOP / f"tools/page/{it}.py" for it in ("lower", "make_module", "make_page", "pages", "statements", "tour")]
    return sorted([*code, *texts, *tools, TOP / "crates.txt"])


def checksum_of_sources() -> str:
    whole = hashlib.sha256()
    for file in sources():
        whole.update(f"{file.relative_to(TOP)}\0".encode() + hashlib.sha256(file.read_bytes()).digest())
    return whole.hexdigest()


def checksum(file: Path) -> str:
    return hashlib.sha256(file.read_bytes()).hexdigest()


def told() -> Dict[str, str]:
    """What the README says of the page and of its sources."""
    return dict(re.findall(r"^(page|sources) +sha256 (\w+)$", README.read_text(), re.M))


def said_by(*words: str) -> str:
    return subprocess.run(words, cwd=TOP, stdout=subprocess.PIPE, text=True, check=True).stdout.strip()


def main() -> None:
    RELEASED.parent.mkdir(exist_ok=True)
    shutil.copyfile(MADE, RELEASED)
    commit, kit = said_by("git", "rev-parse", "HEAD"), said_by("rt", "version")
    README.write_text(TEXT.format(commit=commit, kit=kit, page=checksum(RELEASED), sources=checksum_of_sources()))


if __name__ == "__main__":
    main()
