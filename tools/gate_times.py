#!/usr/bin/env python3
"""What each crate costs the gate: gate_times.py PID FILE

Watches the checks that run below the process PID, once a second, until that ends or SIGTERM tells it to stop. Then it
writes to FILE the processor seconds of each crate's proof, of its tests' proof and of its edits, the dearest crate
first, and ends with one line of sums to standard error. What a check takes after its last look, under a second, is not
seen."""
import os
import pathlib
import signal
import sys
import time

SECOND = os.sysconf("SC_CLK_TCK")
PARTS = ("proof", "tests", "edits")


def processes():
    """The parent, the words, the folder and the processor seconds of each process, with its children that ended."""
    found = {}
    for it in pathlib.Path("/proc").glob("[0-9]*"):
        try:
            fields = (it / "stat").read_text(errors="replace").rpartition(")")[2].split()
            words = (it / "cmdline").read_bytes().decode(errors="replace").split("\0")
            found[int(it.name)] = (int(fields[1]), words, os.readlink(it / "cwd"), sum(map(int, fields[11:15])) / SECOND)
        except (OSError, ValueError, IndexError):
            pass
    return found


def is_below(pid, top, found):
    while pid in found and pid != top:
        pid = found[pid][0]
    return pid == top


def look(top, root, seen):
    """Notes each check that runs now, by its process: its crate, its part of the gate, and its seconds so far."""
    found = processes()
    for pid, (parent, words, folder, seconds) in found.items():
        is_check = "--crate-name" in words[:-1]
        is_part_of_one = parent in found and "--crate-name" in found[parent][1]
        if is_check and not is_part_of_one and is_below(pid, top, found):
            crate = words[words.index("--crate-name") + 1]
            # an edit is tried on a copy of its crate
            part = "edits" if not folder.startswith(root) else "tests" if "--test" in words else "proof"
            seen[pid, crate, part] = seconds


def report(seen, wall, file):
    costs = {}
    for (_, crate, part), seconds in seen.items():
        costs.setdefault(crate, dict.fromkeys(PARTS, 0))[part] += seconds
    dearest = sorted(costs, key=lambda crate: -sum(costs[crate].values()))
    lines = [f"{crate} " + " ".join(f"{part} {costs[crate][part]:.0f}" for part in PARTS) for crate in dearest]
    sums = ", ".join(f"{part} {sum(it[part] for it in costs.values()) / 60:.0f}" for part in PARTS)
    file.parent.mkdir(parents=True, exist_ok=True)
    file.write_text("\n".join(lines) + "\n")
    print(f"the gate took {wall / 60:.0f} minutes; processor minutes: {sums}; by crate, in seconds: {file}", file=sys.stderr)


def main():
    top, file, root, seen, begun, told = int(sys.argv[1]), pathlib.Path(sys.argv[2]), os.getcwd() + "/", {}, time.time(), []
    signal.signal(signal.SIGTERM, lambda *_: told.append(True))
    while not told and os.path.exists(f"/proc/{top}"):
        look(top, root, seen)
        time.sleep(1)
    report(seen, time.time() - begun, file)


main()
