"""What has to be believed, read of the sources: the definitions that the clauses of a call reach, one by one, with the
types and constants of the code and the definitions of the kit's libraries that they name."""
import dataclasses
import functools
import pathlib
import re
import shutil
import subprocess

TOP = pathlib.Path(__file__).resolve().parent.parent
CRATES = TOP / "crates"

IMPORT = re.compile(r"^ *(?:pub |ghost )*use Rattle\.(\w+)\.(\w+)((?:\.\w+)*?)(?:\.\{([^}]*)\}| as (\w+));?$", re.M)
DEFINITION = re.compile(r"(?:(?:abbrev|unfoldable) )*(?:pub )?(?:(?:record|data) (\S+)|(\S+) :(?=\s|$))")
CODE_IMPORT = re.compile(r"^use (\w+)(?:::\w+)*::(?:\{([^}]*)\}|(\w+));", re.M)
# What an import of the code names besides types.
INSIDES = ("TheConstants", "TheVariants", "TheInside")


@dataclasses.dataclass(frozen=True)
class Item:
    """A definition of a page, a type or a constant of the code, or a definition of a library of the kit."""

    kind: str
    file: pathlib.Path
    name: str


class Unread(Exception):
    """A name that leads to nothing that is there."""


@functools.lru_cache(maxsize=None)
def word(name):
    """A search for the name as a word of its own; re itself keeps too few."""
    return re.compile(rf"(?<![\w.-]){re.escape(name)}(?![\w-])")


def mentions(text, name):
    if "◌" in name:
        return all(part in text for part in name.split("◌"))
    return name in text and word(name).search(text) is not None


def plain(text):
    """The text without comments and strings."""
    return "\n".join(re.sub(r'"[^"]*"', "", re.split(r"--|//", line)[0]) for line in text.split("\n"))


def kit_folder():
    """The folder with the libraries of the kit that is on the path, or None."""
    if shutil.which("rt") is None:
        return None
    told = subprocess.run(["rt", "doc"], capture_output=True, text=True)
    folder = pathlib.Path(told.stdout.strip()).parent / "rattle"
    return folder if folder.is_dir() else None


class Page:
    """A page of definitions: each of them with its lines, and what the page imports."""

    def __init__(self, file):
        self.file = file
        self.text = file.read_text()
        self.lines = {}
        self._read()

    def _read(self):
        name, ahead = None, []
        for line in self.text.split("\n"):
            if line.startswith(("--", "infix")):
                ahead.append(line)
                continue
            head = DEFINITION.match(line)
            if head:
                name = head[1] or head[2]
                self.lines.setdefault(name, []).extend(ahead)
            if line.strip() and name and not line.startswith(("use ", "pub use ")):
                self.lines[name].append(line)
            ahead = []

    def named(self, text):
        """The items that this text of the page names: those of the page itself and those that it imports."""
        found = {Item("page", self.file, it) for it in self.lines if mentions(text, it)}
        return found | imported(self.text, text)


def names_of(text, names, alias):
    """The names of one import that the text mentions."""
    used = re.findall(rf"(?<![\w.]){alias}\.(\w+)", text) if alias and f"{alias}." in text else []
    for name in filter(None, map(str.strip, (names or "").split(","))):
        own, _, local = name.partition(" as ")
        if mentions(text, local or own):
            used.append(own)
    return used


@functools.lru_cache(maxsize=None)
def imports_in(text):
    """The imports of a page: crate, folder, path, names and alias of each."""
    return IMPORT.findall(text)


def imported(imports, text):
    """What the text names of that which these imports bring."""
    found = set()
    for crate, folder, path, names, alias in imports_in(imports):
        for name in names_of(text, names, alias):
            found.add(item_of(crate, folder, tuple(path.split(".")[1:]), name))
    return found - {None}


@functools.lru_cache(maxsize=None)
def item_of(crate, folder, path, name):
    if not (CRATES / crate).is_dir():
        return Item("kit", pathlib.Path(crate, folder, *path), name)
    if path[:1] == ("declared",):
        return code_item(crate, path[1:], name)
    if folder != "specs":
        return None
    return page_item(CRATES / crate / "specs" / pathlib.Path(*path).with_suffix(".antt"), name)


def page_item(file, name):
    """The definition of this name, on the page or on the one from which the page hands it on."""
    if not file.is_file():
        raise Unread(f"no page {file.relative_to(TOP)}")
    page = page_at(file)
    if name in page.lines:
        return Item("page", file, name)
    handed_on = "\n".join(line for line in page.text.split("\n") if line.startswith("pub use"))
    for item in imported(handed_on, name):
        return item
    return None


def code_item(crate, path, name):
    """The type or the constant of the code; what stands inside of a type counts as the type."""
    files = [part for part in path if not part[0].isupper()]
    types = [part for part in path if part[0].isupper() and part not in INSIDES]
    return Item("code", code_file(crate, files), types[0] if types else name)


def code_file(crate, path):
    source = CRATES / crate / "src"
    for file in (source.joinpath(*path).with_suffix(".rt") if path else source / "lib.rt", source.joinpath(*path, "mod.rt")):
        if file.is_file():
            return file
    raise Unread(f"no source {'/'.join(path)} of {crate}")


PAGES = {}


def page_at(file):
    if file not in PAGES:
        PAGES[file] = Page(file)
    return PAGES[file]


def code_lines(item):
    """The lines of a type or a constant of the code, without its comments."""
    lines, depth = [], 0
    for line in plain(item.file.read_text()).split("\n"):
        begins = re.match(rf" *(?:pub(?:\(\w+\))? )?(?:struct|enum|const|type) {item.name}\b", line)
        if not lines and not begins:
            continue
        lines += [line] if line.strip() else []
        depth += len(re.findall(r"[{(\[]", line)) - len(re.findall(r"[})\]]", line))
        if depth == 0 and (line.rstrip().endswith((";", "}"))):
            return lines
    if lines:
        return lines
    raise Unread(f"no type or constant {item.name} in {item.file.relative_to(TOP)}")


def types_in(item):
    """The types of the repository that a type of the code has parts of."""
    text = "\n".join(code_lines(item))
    source = item.file.read_text()
    found = set()
    for name in set(re.findall(r"\b[A-Z]\w*[a-z]\w*\b", text)) - {item.name}:
        file = declaring(item.file, source, name)
        if file is not None:
            found.add(Item("code", file, name))
    return found


def declaring(file, source, name):
    """The file that declares a type which this source names, if that is one of the repository."""
    head = rf"^ *pub(?:\(\w+\))? (?:struct|enum|type) {name}\b"
    if re.search(head, source, re.M):
        return file
    for crate, several, one in CODE_IMPORT.findall(source):
        if name not in map(str.strip, several.split(",")) and name != one:
            continue
        folder = file.parents[len(file.relative_to(CRATES).parts) - 3] if crate in ("crate", "super") else CRATES / crate / "src"
        for other in sorted(folder.rglob("*.rt")) if folder.is_dir() else ():
            if re.search(head, other.read_text(), re.M):
                return other
    return None


def kit_page(item, kit):
    """The page of the kit that has the definition; std's are in its toolchain."""
    crate, *path = item.file.parts
    file = kit / crate / pathlib.Path(*path).with_suffix(".antt") if kit else None
    return page_at(file) if file is not None and file.is_file() else None


def lines_of(item, kit):
    if item.kind == "page":
        return page_at(item.file).lines[item.name]
    if item.kind == "code":
        return code_lines(item)
    page = kit_page(item, kit)
    return page.lines.get(item.name, []) if page and item.file.parts[0] != "std" else []


@functools.lru_cache(maxsize=None)
def named_by(item, kit):
    text = plain("\n".join(lines_of(item, kit)))
    if item.kind == "page":
        return page_at(item.file).named(text)
    if item.kind == "code":
        return types_in(item)
    page = kit_page(item, kit)
    if not page or item.file.parts[0] == "std":
        return set()
    return {Item("kit", item.file, it) for it in page.lines if mentions(text, it)} | imported(page.text, text)


def reached(start, kit):
    """All that these items name, and what that names, and so on."""
    found, ahead = set(), list(start)
    while ahead:
        item = ahead.pop()
        if item in found:
            continue
        found.add(item)
        ahead += named_by(item, kit) - found
    return found


def clause_text(file, head):
    """The clauses of a call, or of all calls of a trait."""
    text = file.read_text()
    begin = re.search(rf"^{head}\b", text, re.M).start()
    return re.sub(r"//.*", "", text[begin : re.search(r"^[{}]", text[begin:], re.M).start() + begin])


def named_in_clauses(file, head):
    return imported(file.read_text(), clause_text(file, head))
