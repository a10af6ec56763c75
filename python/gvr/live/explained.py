"""By which rules of gvr.beside a program prints what gevent let it print. A process of its own, in which each set of
rules is tried in a fork: python -m gvr.live.explained, with {"command": .., "lines": .., "status": ..} as its input.
"""
import json
import os
import sys
from typing import FrozenSet, List, Optional, Sequence, Tuple

from ..beside.rules import explain
from .command import main as live

Output = Tuple[List[str], int]


def ran(command: Sequence[str], rules: FrozenSet[str]) -> Output:
    """What the command prints by a machine in which these rules are turned, and its status."""
    sys.stdout.flush()
    reading, writing = os.pipe()
    child = os.fork()
    if child == 0:
        os.close(reading)
        os.dup2(writing, 1)
        os.dup2(os.open(os.devnull, os.O_WRONLY), 2)
        turned = ['--rules', ','.join(sorted(rules))] if rules else []
        status = 70
        try:
            status = live(['--no-certificate', *turned, *command])
        finally:
            sys.stdout.flush()
            os._exit(status)
    os.close(writing)
    with open(reading, encoding='utf-8', errors='replace') as f:
        lines = f.read().splitlines()
    _, ended = os.waitpid(child, 0)
    return lines, os.WEXITSTATUS(ended)


def rules_for(command: Sequence[str], theirs: Output) -> Optional[Sequence[str]]:
    """The smallest set of rules under which the command prints that; None if there is none."""
    found: Optional[Sequence[str]] = explain(lambda rules: ran(command, rules) == theirs)
    return found


def main() -> None:
    asked = json.load(sys.stdin)
    json.dump(rules_for(asked['command'], (asked['lines'], asked['status'])), sys.stdout)


if __name__ == '__main__':
    main()
