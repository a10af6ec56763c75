#!/usr/bin/env python3
"""Makes the page's WebAssembly module of the static library gvr_page, which is proved: make_module.py [--proved] MODULE.wasm

What gvr_page stands on is taken from where tools/prove_crates leaves it, and with --proved from where `rt ci` does. The
proof is kept, in out/checked, and so is the module, under the checksum of the code that it is made from; neither is
made again where all is the same. With --proved a module that is kept is taken without asking for the proof.

The kit's back ends for wasm64 refuse what takes memory from a Global. So the LLVM module that the kit makes of the
library for x86-64 is taken where the kit hands it to its clang; it is given the data layout and the triple of wasm64,
and is compiled by the same clang, with the flags that the kit has for that target. The kit's linker links it with
heap.c, and lower.py gives it 32-bit memory, which every browser has."""
import hashlib
import os
import pathlib
import re
import shutil
import subprocess
import sys
import tempfile
import time

from lower import lowered

HERE = pathlib.Path(__file__).resolve().parent
TOP = HERE.parent.parent
sys.path.insert(0, str(TOP / "tools"))
import crates  # noqa: E402
KIT = pathlib.Path(os.path.realpath(shutil.which("rt") or sys.exit("make_module: there is no rt"))).parent.parent
CLANG = KIT / "toolchain/bin/clang"
NAME = "gvr_page"
CRATE = TOP / "crates" / NAME
CHECKED = CRATE / "out/checked"
IS_PROVED = "--proved" in sys.argv[1:]
TRIPLE = "wasm64-unknown-unknown"
LAYOUT = "e-m:e-p:64:64-p10:8:8-p20:8:8-i64:64-i128:128-n32:64-S128-ni:1:10:20"
# As the kit calls clang for this target.
FLAGS = f"""--target={TRIPLE} -mcpu=lime1 -mllvm -expand-div-rem-bits=64 -mllvm -expand-fp-convert-bits=64
    -ffunction-sections -fdata-sections -mllvm -trap-unreachable -mllvm -no-x86-call-frame-opt
    -mllvm -disable-machine-licm -mllvm -disable-postra-machine-licm -mllvm -sink-common-insts=false
    --no-default-config -no-canonical-prefixes -fintegrated-cc1 -fno-crash-diagnostics -Werror -c -O3""".split()
FLAGS_OF_C = f"--target={TRIPLE} -mcpu=lime1 -ffreestanding -nostdinc -O2 -Wall -Werror -c".split()
X86 = ' "probe-stack"="inline-asm" "stack-probe-size"="3072" "target-cpu"="x86-64-v2"'
STACK = "8388608"
# What the module may name of its surroundings: the heap, and what LLVM knows itself.
DECLARED = re.compile(
    r"rattle_(alloc|realloc|dealloc)|llvm\.(memset|memmove|memcpy|cttz|ctlz|ctpop|bswap|trap|arithmetic\.fence"
    r"|[su](add|sub|mul)\.with\.overflow)\b.*"
)


def stop(why):
    sys.exit(f"make_module: {why}")


def call(*words):
    if subprocess.run([str(it) for it in words], check=False).returncode:
        stop(f"{words[0]} failed")


def checksum():
    """The checksum of what the module is made from: the sources of its crates, the heap, this script, the kit."""
    of = hashlib.sha256(subprocess.run(["rt", "version"], capture_output=True, check=True).stdout)
    sources = [it for crate in crates.crates_below(NAME) for it in (TOP / "crates" / crate / "src").rglob("*.rt")]
    for file in [*sorted(sources), *(HERE / it for it in ("heap.c", "lower.py", "make_module.py")), TOP / "crates.txt"]:
        of.update(f"{file.relative_to(TOP)}\0".encode() + hashlib.sha256(file.read_bytes()).digest())
    return of.hexdigest()[:16]


def wrapped_clang(room, to):
    """A folder of tools for the kit, whose clang keeps the module, and makes an empty object in place of its own."""
    (room / "tools/bin").mkdir(parents=True)
    (room / "tools/lib").symlink_to(KIT / "toolchain/lib")
    for it in ("llvm-ar", "ld.lld"):
        (room / "tools/bin" / it).symlink_to(KIT / "toolchain/bin" / it)
    clang = room / "tools/bin/clang"
    clang.write_text(
        f"""#!/bin/sh
for word in "$@"; do case "$word" in *.bc) cp "$word" "{to}"; found=1;; esac; done
[ -n "$found" ] || exec "{CLANG}" "$@"
while [ $# -gt 0 ]; do [ "$1" = -o ] && out=$2; shift; done
echo | exec "{CLANG}" -x c -c - -o "$out"
"""
    )
    clang.chmod(0o755)
    return room / "tools"


def place_of(crate):
    """The folder that the crate's library lies in."""
    return TOP / (f"crates/{crate}/out/rlib" if IS_PROVED else "crates/gvr/out/libraries")


def words_of(uses):
    """What a check and a build of the crate have in common."""
    words = ["--crate-name", NAME, "src/lib.rt"]
    for it in ["core", "std", *uses[NAME]]:
        words += ["--extern", f"{it}={place_of(it) if it in uses else KIT / 'rlibs'}/{it}.rlib"]
    for place in dict.fromkeys([KIT / "rlibs", *map(place_of, crates.crates_below(NAME)[:-1])]):
        words += ["-L", f"dependency={place}"]
    return [*words, "--antt-project", KIT / "rattle/logic/antt-project.json", "--links", f"{NAME}=", "--crate-type", "staticlib"]


def rattle(*words):
    """What the kit's compiler says to this, and whether all went well."""
    given = {"cwd": CRATE, "stdout": subprocess.PIPE, "stderr": subprocess.STDOUT, "text": True}
    ran = subprocess.run([str(it) for it in (KIT / "bin/rattle", *words)], check=False, **given)
    return ran.returncode == 0, ran.stdout


def is_proved(uses):
    """Whether what was proved is the crate as it stands, over the libraries as they stand."""
    return CHECKED.is_dir() and rattle("check", *words_of(uses), "--crate-checked", CHECKED)[0]


def prove(uses):
    """Has the crate proved; all that the proof says goes to a file."""
    is_well, said = rattle("check", *words_of(uses), "--logic-built", KIT / "logic_built", "--jobs", "1", "-o", CHECKED)
    (CRATE / "out/page_log").write_text(said)
    if not is_well:
        lines = "\n".join(said.splitlines()[-5:])
        stop(f"gvr_page is not proved; what the kit says stands in crates/gvr_page/out/page_log and ends with\n{lines}")


def take_module(room, uses):
    """The LLVM module that the kit makes of the library. It makes one of a proved crate alone."""
    to = room / "page.bc"
    made = ["--toolchain", wrapped_clang(room, to), "--backend", "llvm", "-o", room / "library.a"]
    is_well, said = rattle("build", *words_of(uses), "--crate-checked", CHECKED, *made)
    if not is_well or not to.exists():
        stop(f"the kit built no library of {NAME}: {(said.splitlines() or [''])[-1]}")
    return to


def for_wasm64(text):
    """The module's text with the layout and the triple of wasm64; it is refused where it names what a page has not."""
    beyond = [it for it in re.findall(r'^declare .*@"?([^"(]+)', text, re.M) if not DECLARED.fullmatch(it)]
    # An empty line of assembler keeps loads and stores in their order, and is the same for each target.
    lines = re.findall(r"^.* asm .*$", text, re.M)
    beyond += [it for it in lines if 'asm sideeffect "", "~{memory}"()' not in it]
    if beyond:
        stop(f"the module names what a page has not: {beyond[:4]}")
    for name, value in (("datalayout", LAYOUT), ("triple", TRIPLE)):
        text, count = re.subn(f"^target {name} = .*$", f'target {name} = "{value}"', text, flags=re.M)
        if count != 1:
            stop(f"the module has {count} lines of its {name}")
    if X86 not in text:
        stop("the module's functions are not for the processor that the kit has")
    return text.replace(X86, ' "target-cpu"="lime1"')


def make(to, uses):
    with tempfile.TemporaryDirectory() as name:
        room = pathlib.Path(name)
        as_text = ["-S", "-emit-llvm", "-Xclang", "-disable-llvm-passes"]
        module = take_module(room, uses)
        call(CLANG, "-Wno-override-module", "-x", "ir", module, *as_text, "-o", room / "page.ll")
        (room / "page64.ll").write_text(for_wasm64((room / "page.ll").read_text()))
        call(CLANG, *FLAGS, "-x", "ir", room / "page64.ll", "-o", room / "page.o")
        call(CLANG, *FLAGS_OF_C, HERE / "heap.c", "-o", room / "heap.o")
        call(KIT / "toolchain/bin/llvm-ar", "rcs", room / "page.a", room / "page.o", room / "heap.o")
        linker = [KIT / "bin/rattle-link", "--target", TRIPLE, "--toolchain", KIT / "toolchain", "--stack", STACK]
        call(*linker, "-o", room / "page.wasm", room / "page.a")
        to.write_bytes(lowered((room / "page.wasm").read_bytes()))


def main():
    began, uses = time.time(), crates.named_crates()
    kept = CRATE / "out/modules"
    kept.mkdir(parents=True, exist_ok=True)
    module = kept / f"{checksum()}.wasm"
    is_made = module.exists()
    if not (is_made and IS_PROVED) and not is_proved(uses):
        print("make_module: proves gvr_page, which takes some minutes", file=sys.stderr)
        prove(uses)
    if not is_made:
        for old in kept.glob("*.wasm"):
            old.unlink()
        make(module, uses)
        print(f"make_module: {module.stat().st_size} bytes after {time.time() - began:.0f} s", file=sys.stderr)
    shutil.copyfile(module, sys.argv[-1])


main()
