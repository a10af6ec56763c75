"""The certificate: the record of a run is run by the proved program, as it is and once more with a `print` of what each
statement gave, and each line is compared. A trace alone does not show which item a `qget` took.
"""
import os
import subprocess
from typing import Callable, List, Optional, Sequence

from .errors import NotCertified, Refused
from .places import told
from .session import Session
from .spelling import Spelt

CERTIFIED = 'certified by the proved program'
MAKES_ONE = './build makes it'
Runner = Callable[[str], List[str]]


def find_program() -> Optional[str]:
    """The built program: the one that GVR or GVR_PROGRAM names, or that of the checkout that this package stands in."""
    named = os.environ.get('GVR') or os.environ.get('GVR_PROGRAM')
    if named:
        return named
    root = os.path.abspath(os.path.join(os.path.dirname(__file__), *[os.pardir] * 3))
    built = os.path.join(root, 'crates', 'gvr', 'out', 'gvr')
    return built if os.access(built, os.X_OK) else None


def by_program(program: str, words: Sequence[str]) -> Runner:
    """Runs a text by a program; raises Refused."""
    def run(text: str) -> List[str]:
        done = subprocess.run([program, 'run', *words], input=text.encode(), stdout=subprocess.PIPE,
                              stderr=subprocess.PIPE)
        complaint = done.stderr.decode().strip().split('\n')[0]
        if done.returncode not in (0, 1, 6, 8):
            raise refused(complaint)
        return done.stdout.decode().splitlines()
    return run


def refused(complaint: str) -> Exception:
    """What `gvr: line 3: reason 22: ..` is."""
    words = complaint.split(': ', 3)
    if len(words) == 4 and words[1].startswith('line ') and words[1][5:].isdigit():
        return Refused(int(words[1][5:]), '%s: %s' % (words[2], words[3]))
    return NotCertified('the program says: %s' % (complaint or 'nothing'))


def certify(session: Session, run: Runner) -> None:
    """Compares, and takes the trace of the record over, which has its counts. Raises NotCertified, or Refused where the
    record is past a limit of the language."""
    take_over(session, run)
    compare('what the statements gave', run(session.spelt(telling=True).text), with_gifts(session))


def take_over(session: Session, run: Runner) -> None:
    """Takes over the trace of the record. Raises NotCertified where it is another than that of the run."""
    lines = run(session.spelt().text)
    compare('the trace', lines, session.trace)
    session.trace = lines


def with_gifts(session: Session) -> List[str]:
    """The trace, with a line for what each statement gave."""
    lines: List[str] = []
    done = 0
    for at, who, text in session.gave:
        lines += session.trace[done:at]
        lines.append('print g%d %s' % (who, text))
        done = at
    return lines + session.trace[done:]


def compare(name: str, got: Sequence[str], had: Sequence[str]) -> None:
    """The same lines, but for the count of moves at the end: the record has some more."""
    for number in range(max(len(got), len(had))):
        a = got[number].split(' moves ')[0] if number < len(got) else 'no more'
        b = had[number].split(' moves ')[0] if number < len(had) else 'no more'
        if a != b:
            raise NotCertified('line %d of %s: %s; in the run: %s' % (number + 1, name, a, b))


def limit(spelt: Spelt, refusal: Refused) -> str:
    """Which limit of the language the record is past, and by which line of the program."""
    line = spelt.lines[refusal.line - 1].strip() if refusal.line <= len(spelt.lines) else ''
    place = spelt.places[refusal.line - 1] if refusal.line <= len(spelt.places) else None
    at = told(place)
    return 'the record is past a limit of the language: %s; line %d of it: %s%s' % (
        refusal.reason.split(': ', 1)[-1], refusal.line, line, ', ' + at if at else '')
