"""The tests of the packages in python/, file by file, and mypy over them; ./test and tools/check_python run them.

Each file is run by itself, as tools/python would run it, by an interpreter that has gevent, or greenlet, where there is
one. What is left out, since a module or a program is missing, is told with why."""
import json
import os
import pathlib
import re
import subprocess
import time
from typing import Any, Dict, List, NamedTuple, Tuple

TOP = pathlib.Path(__file__).resolve().parent.parent
PYTHON = TOP / "tools/python"
TESTS = TOP / "python/tests"
# A test file may take so many seconds; how long it took is told of those that take more than a few.
LONGEST, LONG = 600, 10
# Runs the tests of a file, and writes what came of them as its last line.
RUNNER = """
import importlib.util, json, os, sys, unittest
file = sys.argv[1]
sys.path.insert(0, os.path.dirname(file))
name = os.path.basename(file)[:-3]
try:
    spec = importlib.util.spec_from_file_location(name, file)
    module = sys.modules[name] = importlib.util.module_from_spec(spec)
    spec.loader.exec_module(module)
except ModuleNotFoundError as missing:
    print(json.dumps({"lacks": missing.name}))
    sys.exit()
tests = unittest.defaultTestLoader.loadTestsFromModule(module)
if len(sys.argv) > 2:
    part, parts = map(int, sys.argv[2].split("/"))
    cases, groups = [], [tests]
    for it in groups:
        groups += [each for each in it if isinstance(each, unittest.TestSuite)]
        cases += [each for each in it if not isinstance(each, unittest.TestSuite)]
    tests = unittest.TestSuite(cases[len(cases) * part // parts : len(cases) * (part + 1) // parts])
came = unittest.TextTestRunner().run(tests)
bad = {case.id() for case, _ in came.failures + came.errors} | {case.id() for case in came.unexpectedSuccesses}
skipped = [why for _, why in came.skipped]
print("\\n" + json.dumps({"passed": max(0, came.testsRun - len(bad) - len(skipped)), "failed": sorted(bad), "skipped": skipped}))
"""
OURS = {"gvr", "gvr_scgi"}
# The files that take longest are run in so many parts, side by side; they come first, so that none is left at the end.
PARTS = {"test_scgi_servers.py": 4, "test_tools.py": 3, "test_gvr.py": 3, "test_examples.py": 2, "test_told.py": 2,
         "test_times.py": 2}


class Came(NamedTuple):
    """What came of some tests: what is said of them, and how many passed and failed."""
    said: str
    passed: int
    failed: int


class Some(NamedTuple):
    """The tests of a file, or the part of them that is named, as `1/3`."""
    file: pathlib.Path
    part: str = ""

    def name(self) -> str:
        """What it is called: its folder and its file."""
        file = self.file.relative_to(TESTS) if self.file.is_relative_to(TESTS) else self.file
        return f"{file} {self.part}".rstrip()


def told(*lines: str) -> str:
    """Lines as this tool writes them."""
    return "".join(f"check_python: {line}\n" for line in lines)


def interpreter(module: str) -> str:
    """The interpreter that tools/python takes for this module; nothing if none has it."""
    script = f"import sys, {module}; print(sys.executable)"
    ended = subprocess.run([PYTHON, "--with", module, "-c", script], stdout=subprocess.PIPE, stderr=subprocess.DEVNULL, text=True)
    return ended.stdout.strip()


def chosen() -> Tuple[str, str]:
    """The interpreter for the tests, with the packages' bytecode made, and what is said if it has no gevent."""
    found = {module: interpreter(module) for module in ("gevent", "greenlet", "sys")}
    python = found["gevent"] or found["greenlet"] or found["sys"]
    # Else each of some hundred starts would compile them, where the environment has Python keep none.
    subprocess.run([python, "-m", "compileall", "-q", TOP / "python"], stdout=subprocess.DEVNULL)
    lacks = "gevent" if found["greenlet"] else "gevent or greenlet"
    return python, "" if found["gevent"] else told(f"no interpreter has {lacks}")


def environment() -> Dict[str, str]:
    """That in which tools/python runs."""
    before = os.environ.get("PYTHONPATH", "")
    return {**os.environ, "PYTHONPATH": f"{TOP / 'python'}{os.pathsep * bool(before)}{before}"}


def all_tests(no_network: bool) -> Tuple[List[Some], str]:
    """The tests, those that take longest first; and what is left out."""
    files = sorted(TESTS.glob("*/test_*.py"), key=lambda file: (file.name not in PARTS, file))
    said = ""
    if no_network:
        said = told("the tests of python/tests/app are left out, since they listen")
        files = [file for file in files if file.parent.name != "app"]
    parts = [(file, PARTS.get(file.name, 1)) for file in files]
    return [Some(file, f"{it}/{count}" if count > 1 else "") for file, count in parts for it in range(count)], said


def run(some: Some, python: str) -> Came:
    """Runs these tests by this interpreter."""
    began = time.time()
    command = [python, "-c", RUNNER, some.file, *([some.part] if some.part else [])]
    try:
        came = subprocess.run(command, stdin=subprocess.DEVNULL, capture_output=True, text=True, timeout=LONGEST, cwd=TOP, env=environment())
    except subprocess.TimeoutExpired:
        return Came(told(f"{some.name()}: no answer in {LONGEST} s"), 0, 1)
    last = came.stdout.rstrip("\n").rpartition("\n")[2]
    if not last.startswith("{"):
        return Came(came.stderr[-4000:] + told(f"{some.name()} ended with status {came.returncode}"), 0, 1)
    answer = report(some.name(), json.loads(last), came.stderr)
    took = time.time() - began
    return answer._replace(said=answer.said + (told(f"{some.name()} took {took:.0f} s") if took > LONG else ""))


def report(name: str, came: Dict[str, Any], said: str) -> Came:
    """What is told of a file's tests by what came of them."""
    if came.get("lacks"):
        if came["lacks"].split(".")[0] in OURS:
            return Came(told(f"{name} can't be read: there is no module {came['lacks']}"), 0, 1)
        return Came(told(f"{name} is left out, since it needs the module {came['lacks']}"), 0, 0)
    lines = told(*(f"{name}: {came['skipped'].count(why)} left out: {why}" for why in sorted(set(came["skipped"]))))
    if came["failed"]:
        lines += said[-4000:] + told(f"{name} fails: {', '.join(came['failed'])}")
    return Came(lines, came["passed"], len(came["failed"]))


def check_types() -> Came:
    """Runs mypy; how many modules passed, and how many lines of it tell of something wrong."""
    python = interpreter("mypy")
    if not python:
        return Came(told("mypy is left out, since it is not installed"), 0, 0)
    packages = [word for name in sorted(OURS) if (TOP / "python" / name).is_dir() for word in ("-p", name)]
    came = subprocess.run([python, "-m", "mypy", "--strict", *packages], cwd=TOP / "python", capture_output=True,
                          text=True, env={**os.environ, "MYPYPATH": str(TOP / "python")})
    wrong = re.findall(r"^.*: error: .*$", came.stdout, re.M)
    if came.returncode and not wrong:
        return Came(told(f"mypy ends with status {came.returncode}: {(came.stdout + came.stderr)[-500:]}"), 0, 1)
    checked = re.search(r"(\d+) source files?", came.stdout)
    return Came(told(*(f"mypy: {line}" for line in wrong)), 0 if wrong else int(checked[1]) if checked else 0, len(wrong))
