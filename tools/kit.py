"""How the kit's compiler is called for a crate, over the libraries that ./build keeps: for tools/prove_crates and tools/check."""
import functools
import hashlib
import os
import pathlib
import shutil
import subprocess
import sys

import crates

ROOT = pathlib.Path(__file__).resolve().parent.parent
KIT = pathlib.Path(os.path.realpath(shutil.which("rt") or sys.exit("gvr: rt, the command of the Rattle kit, is not on the path"))).parent.parent
PLACE = ROOT / "crates/gvr/out/libraries"


def library_flags():
    """`--statements`, unless the kit is too old for it."""
    said = subprocess.run([KIT / "bin/rattle", "build", "--help"], capture_output=True, text=True, check=True).stdout
    return ["--statements"] if "--statements" in said else []


class Crates:
    """The crates to prove: what they name, what they are made from, and how the kit is called for one."""

    def __init__(self, names):
        self.named = crates.named_crates()
        self.all = crates.crates_below(*names)
        self.uses = {crate: [it for it in self.named[crate] if it in self.named] for crate in self.all}
        self.flags, self.texts = library_flags(), {}
        self.kit = subprocess.run(["rt", "version"], capture_output=True, text=True, check=True).stdout

    def text_sum(self, crate):
        """Of the crate's text as it stands now."""
        of, folder = hashlib.sha256(), ROOT / "crates" / crate
        for file in sorted(it for part in ("src", "specs", "proofs") for it in (folder / part).rglob("*") if it.is_file()):
            of.update(f"{file.relative_to(folder)}\0".encode() + hashlib.sha256(file.read_bytes()).digest())
        return of.hexdigest()

    @functools.lru_cache(maxsize=None)
    def checksum(self, crate):
        """Of the kit, of the crate's text as it stood when this began, and of the crates below."""
        self.texts[crate] = self.text_sum(crate)
        below = [self.checksum(it) for it in self.uses[crate]]
        return hashlib.sha256(repr([self.kit, self.flags, self.named[crate], below, self.texts[crate]]).encode()).hexdigest()

    def is_program(self, crate):
        return (ROOT / "crates" / crate / "src/main.rt").exists()

    def stands(self, crate):
        kept, now = PLACE / f"{crate}.sum", self.checksum(crate)
        return kept.exists() and kept.read_text() == now

    def compiler(self):
        """The kit's compiler, which proves."""
        return f"{KIT}/bin/rattle"

    def words(self, crate, jobs):
        """The crate, what it stands on, and the logic, as the kit's compiler is told of them."""
        words = ["--crate-name", crate, "src/main.rt" if self.is_program(crate) else "src/lib.rt"]
        for it in ["std", *self.named[crate]]:
            words += ["--extern", f"{it}={PLACE if it in self.named else KIT / 'rlibs'}/{it}.rlib"]
        words += ["-L", f"dependency={KIT}/rlibs", "-L", f"dependency={PLACE}", "--links", f"{crate}=", "--jobs", str(jobs)]
        return [*words, "--antt-project", f"{KIT}/rattle/logic/antt-project.json", "--logic-built", f"{KIT}/logic_built"]

    def commands(self, crate, jobs):
        """What is called to prove the crate, and then to build it."""
        rattle = [self.compiler(), "build", *self.words(crate, jobs)]
        if not self.is_program(crate):
            return [[*rattle, *self.flags, "-o", f"{PLACE}/{crate}.rlib"]]
        tools = ["--toolchain", f"{KIT}/toolchain"]
        link = [f"{KIT}/bin/rattle-link", "--target", "x86_64-unknown-linux-gnu", *tools, "-o", f"{PLACE}/{crate}"]
        return [[*rattle, *tools, "--backend", "llvm", "-o", f"{PLACE}/{crate}.o"],
                [*link, f"{PLACE}/{crate}.o", f"{KIT}/c/libos_c.a", f"{KIT}/c/liblibc_c.a"]]
