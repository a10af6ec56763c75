"""The programs of examples/live, and what stands beside each of them: its output, its record and its trace.

tools/check_live [NAME..]             runs them once more, and compares
tools/check_live --write [NAME..]     writes record and trace beside each (the outputs are written by hand)
tools/check_live --gevent N [NAME..]  runs each N times under gevent itself in real time, with timers four times as long
"""
import os
import pathlib
import re
import subprocess
import sys
import tempfile
from concurrent.futures import ThreadPoolExecutor
from typing import List, NamedTuple, Tuple

TOP = pathlib.Path(__file__).resolve().parents[3]
LIVE = TOP / "examples/live"
PATTERNS = TOP / "examples/patterns"
PROGRAM = pathlib.Path(os.environ.get("GVR") or TOP / "crates/gvr/out/gvr")
LANES = max(1, len(os.sched_getaffinity(0)))
CERTIFIED = "certified by the proved program"


class Ran(NamedTuple):
    """What a program of examples/live wrote, and what came of it."""

    output: str
    record: str
    trace: str
    said: str
    status: int


class Answer(NamedTuple):
    """What `gvr` answers: its status, its output, its lines on standard error."""

    status: int
    output: str
    said: str


def names(folder: pathlib.Path = LIVE, kind: str = "py") -> List[str]:
    return sorted(file.stem for file in folder.glob(f"*.{kind}"))


def question(text: str) -> str:
    """The question of a program or a scenario: its first comment that has no words to run it with, up to the answer."""
    asked: List[str] = []
    for line in text.splitlines():
        if line.startswith("# run "):
            continue
        if not line.startswith("# ") or asked and asked[-1].endswith("?"):
            break
        asked.append(line[2:])
    return " ".join(asked)


def environment(**more: str) -> "dict[str, str]":
    return {**os.environ, "PYTHONPATH": str(TOP / "python"), "PYTHONDONTWRITEBYTECODE": "1", **more}


def run(name: str, folder: str) -> Ran:
    """The program under gvr; its record and its trace stand in the folder afterwards."""
    at = pathlib.Path(folder) / name
    command = [sys.executable, "-m", "gvr.live", "--record", str(at), f"{name}.py"]
    ended = subprocess.run(command, cwd=LIVE, env=environment(PYTHONHASHSEED="0"), capture_output=True, text=True, check=False)
    record, trace = (at.with_suffix(it).read_text() if at.with_suffix(it).is_file() else "" for it in (".gvr", ".trace"))
    return Ran(ended.stdout, record, trace, ended.stderr, ended.returncode)


def run_all(chosen: List[str]) -> "dict[str, Ran]":
    """What each of these programs wrote."""
    with tempfile.TemporaryDirectory() as folder, ThreadPoolExecutor(LANES) as lanes:
        return dict(zip(chosen, lanes.map(lambda name: run(name, folder), chosen)))


def answer(words: List[str], given: str) -> Answer:
    """What the built program answers, or the model where there is no built program."""
    if PROGRAM.is_file():
        ended = subprocess.run([PROGRAM, *words], input=given, capture_output=True, text=True, check=False)
        return Answer(ended.returncode, ended.stdout, ended.stderr)
    sys.path[:0] = [str(TOP / "python")]
    from gvr import model

    told = model.answer(words, given.encode())
    return Answer(told.status, told.out.decode(), told.complaint)


def replay(record: str) -> Answer:
    """The run of a record, with the words that its first line has."""
    words = re.match(r"# (run .*)\n", record)
    return answer(words[1].split() if words else ["run"], record)


def verify(record: str, trace: str) -> Answer:
    """What `verify` says of a record and its trace. It has no --tick: a trace that ticked is another's."""
    return answer(["verify"], f"{record}====\n{trace}")


def differences(name: str, ran: Ran) -> List[str]:
    """What differs between a run and what stands beside the program."""
    told = []
    for kind, came in (("out", ran.output), ("gvr", ran.record), ("trace", ran.trace)):
        file = LIVE / f"{name}.{kind}"
        if not file.is_file() or file.read_text() != came:
            told.append(f"examples/live/{name}.{kind} is not what the run has")
    if PROGRAM.is_file() and CERTIFIED not in ran.said:
        told.append(f"examples/live/{name}.py: the run is not certified: {ran.said.strip()[-300:]}")
    return told


def in_virtual_time(chosen: List[str]) -> "dict[str, str]":
    """What each of these programs writes under gevent itself, over a loop with a virtual clock. One that polls needs time
    to pass while it does: there each callback of the loop takes some."""

    def output(name: str) -> str:
        ticks = (LIVE / f"{name}.py").read_text().startswith("# run --tick")
        more = environment(GEVENT_LOOP="gvr.beside.adapters.virtual_loop.VirtualLoop", VIRTUAL_LOOP_COST="0.00001" if ticks else "0")
        ended = subprocess.run([sys.executable, f"{name}.py"], cwd=LIVE, env=more, capture_output=True, text=True, timeout=60, check=False)
        return ended.stdout

    with ThreadPoolExecutor(LANES) as lanes:
        return dict(zip(chosen, lanes.map(output, chosen)))


def compare_with_gevent(chosen: List[str], runs: int, scale: int = 4) -> List[str]:
    """A line for each program: in how many runs of gevent itself, whose timers take so many times as long, it wrote what
    stands beside it."""
    sys.path[:0] = [str(TOP / "python")]
    from gvr.live.under_gevent import under_gevent

    told = []
    for name in chosen:
        with ThreadPoolExecutor(runs) as lanes:
            came = list(lanes.map(lambda _: under_gevent([str(LIVE / f"{name}.py")], scale)[0], range(runs)))
        same = came.count(tuple((LIVE / f"{name}.out").read_text().splitlines()))
        told.append(f"{name}: the same in {same} of {runs} runs")
    return told


def write(chosen: List[str]) -> None:
    """Writes record and trace beside each program whose output is the one that stands there."""
    for name, ran in run_all(chosen).items():
        if ran.output != (LIVE / f"{name}.out").read_text():
            continue
        (LIVE / f"{name}.gvr").write_text(ran.record)
        (LIVE / f"{name}.trace").write_text(ran.trace)


def options(words: List[str]) -> Tuple[List[str], List[str]]:
    """The words that begin with two dashes, with the number behind --gevent, and the others."""
    if words[:1] == ["--gevent"]:
        return words[:2], words[2:]
    return [it for it in words if it.startswith("--")], [it for it in words if not it.startswith("--")]


def main() -> int:
    told, chosen = options(sys.argv[1:])
    chosen = chosen or names()
    if told[:1] == ["--gevent"]:
        for line in compare_with_gevent(chosen, int(told[1])):
            print(line)
        return 0
    if told == ["--write"]:
        write(chosen)
    wrong = [line for name, ran in run_all(chosen).items() for line in differences(name, ran)]
    for line in wrong:
        print(line)
    print(f"check_live: {len(chosen)} programs: {max(0, len(chosen) - len(wrong))} passed, {len(wrong)} failed")
    return int(bool(wrong))


if __name__ == "__main__":
    sys.exit(main())
