"""What crates.txt says, for the tools: which crates there are, what each names, and which ones each stands on.

The file is read by tools/crates.awk alone, which the shell's tools call too."""
import pathlib
import subprocess

TOP = pathlib.Path(__file__).resolve().parent.parent


def told(*words, file=TOP / "crates.txt"):
    """The lines that the reader writes, each as its words."""
    ended = subprocess.run(["awk", *words, "-f", TOP / "tools/crates.awk", file], stdout=subprocess.PIPE, text=True, check=True)
    return [line.split() for line in ended.stdout.splitlines()]


def named_crates(**more):
    """The crates in the order of the file, each with what it names: crates of this repository and libraries of the kit."""
    return {name: named for name, *named in told(**more)}


def crates_below(*tops, **more):
    """These crates and those that they stand on, each after those that it names."""
    return [name for name, in told("-v", f"top={' '.join(tops)}", **more)]
