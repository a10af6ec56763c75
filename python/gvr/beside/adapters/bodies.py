"""What all adapters in Python share of a run: what is kept of it, its moves, and what a body does without the runtime."""
import argparse
from typing import Any, Dict, List, Optional, Set, Tuple

from .protocol import Budget, Evaluator, Fault, Log, Value, catches, value_text

Tree = Dict[str, Any]
Names = Dict[str, Value]
Returned = Optional[Tuple[Value]]                  # (value,) at a return


class Bodies:
    """One run of a tree."""

    def __init__(self, tree: Tree, options: argparse.Namespace) -> None:
        self.options, self.log = options, Log()
        self.moves = self.timeouts = 0
        self.fns: Dict[str, Tree] = {f['name']: f for f in tree['functions']}
        self.eval_ = Evaluator(self)
        self.begun: Set[int] = set()
        self.outcomes: Dict[int, Tuple[str, Value]] = {}

    # ------------------------------------------------------------ what a runtime says

    def me(self) -> int:
        """The number of the greenlet that runs."""
        raise NotImplementedError

    def query_handle(self, form: str, handle: Any) -> Value:
        """ready, successful, value or exception of a greenlet or a job."""
        raise NotImplementedError

    def query_object(self, form: str, name: str) -> Any:
        """isset, counter, qsize, unfinished or members of an object."""
        raise NotImplementedError

    def to_exc(self, fault: Fault) -> BaseException:
        """The runtime's exception for a fault."""
        raise NotImplementedError

    # ------------------------------------------------------------ what a body does

    def move(self) -> None:
        if self.moves == self.options.moves:
            raise Budget
        self.moves += 1

    def ev(self, e: List[Any], env: Names) -> Any:
        return self.eval_(e, env, self.me())

    def fault(self, v: Any) -> Fault:
        if not isinstance(v, Fault):
            raise TypeError
        return v

    def runs_alone(self, st: Tree, env: Names) -> bool:
        """Runs a statement that asks nothing of the runtime; whether it is one."""
        word = st['do']
        if word == 'let':
            env[st['name']] = self.ev(st['e'], env)
        elif word == 'print':
            self.log('print', g=self.me(), v=value_text(self.ev(st['e'], env)), line=st['line'])
        elif word == 'raise':
            raise self.to_exc(self.fault(self.ev(st['e'], env)))
        else:
            return False
        return True

    @staticmethod
    def handler(st: Tree, fault: Fault, env: Names) -> Optional[List[Tree]]:
        """The body of the first `except` of a `try` that takes the fault, which has its name from here on."""
        for cls, name, body in st['excepts']:
            if catches(cls, fault):
                if name is not None:
                    env[name] = fault
                return list(body)
        return None
