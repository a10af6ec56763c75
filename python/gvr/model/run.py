"""Reading a whole text, and running a scenario: what most callers want."""
from typing import Iterator, List, NamedTuple, Optional

from .check import name_refusals
from .indexed import IndexedMachine
from .items import Line, Stop
from .machine import End
from .reader import read_text
from .tree import Scenario
from .words import Refusal, Refused
from .worlds import Held, ScriptWorld, ThreadWorld, World


class Options(NamedTuple):
    """What `gvr run` may be told."""
    turns: int = 1000000
    moves: int = 10000000
    tick: int = 0
    native: Optional[int] = None
    order: str = "free"


def read(text: bytes) -> Scenario:
    """The scenario, checked. Raises Refused."""
    scenario = read_text(text).scenario
    refusals = name_refusals(scenario, set())
    if refusals:
        raise Refused(refusals[0])
    return scenario


def refusals(text: bytes) -> List[Refusal]:
    """All that is wrong with a text: first the refusal that the program tells, which is the only one that is certain.
    The others are what remains if nothing else is mended."""
    reader = read_text(text, all_refusals=True)
    if any(refusal.reason <= 3 for refusal in reader.refusals):
        return reader.refusals
    return reader.refusals + name_refusals(reader.scenario, reader.doubtful)


def world_of(options: Options) -> World:
    """The world of these options."""
    if options.native is None:
        return ScriptWorld(options.tick)
    return Held(ThreadWorld()) if options.order == "held" else ThreadWorld()


class Run:
    """The run of a scenario: an iterator of its Lines, one run of a greenlet after another. Behind the last line end is
    how it ended."""

    def __init__(self, scenario: Scenario, options: Options = Options()) -> None:
        self.lines: List[Line] = []
        self.workers = options.native or 1
        self.machine = IndexedMachine(scenario, options.turns, options.moves, world_of(options), self.lines.append)
        self.end: Optional[End] = None

    def __iter__(self) -> Iterator[Line]:
        self.machine.world.begin(self.workers)
        try:
            step = self.machine.begin
            while self.end is None:
                try:
                    step()
                except Stop as stop:
                    self.end = self.machine.stopped(stop)
                step = self.machine.turn
                lines = self.lines[:]
                self.lines.clear()
                yield from lines
        finally:
            self.machine.world.finish()


def run(scenario: Scenario, options: Options = Options()) -> Run:
    """The run of a checked scenario."""
    return Run(scenario, options)
