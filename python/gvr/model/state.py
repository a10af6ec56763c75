"""The state of a run and its list of items: MACHINE, "The state"."""
from typing import Callable, Dict, List, Optional

from .items import Greenlet, Item, Job, Line, Link, Thing, Wait
from .tree import Scenario
from .values import Fault, G, Handle, Outcome
from .worlds import World


class State:
    """The moment, the objects, the greenlets, the jobs, the counts and the items. tell gets each Line of the trace."""

    def __init__(self, scenario: Scenario, turns: int, moves: int, world: World, tell: Callable[[Line], object]) -> None:
        self.functions = {f.name: f for f in scenario.functions}
        self.objects = {d.name: Thing(d) for d in scenario.objects}
        self.most_turns, self.most_moves, self.world, self.tell = turns, moves, world, tell
        self.now = 0
        self.turns = self.moves = self.timeouts = self.links = self.kills = 0
        self.jobs_out = 0
        self.greenlets: List[Greenlet] = []
        self.jobs: Dict[int, Job] = {}
        self.items: Dict[int, Item] = {}                # in order of since
        self.next_since = self.next_ready = 0

    def say(self, text: str, g: Optional[Greenlet] = None, at: Optional[int] = None) -> None:
        """A line of the trace, of this greenlet; of the scenario's line at, where that is not the greenlet's."""
        self.tell(Line(text) if g is None else Line(text, g.number, g.at if at is None else at))

    def add(self, kind: str, g: Greenlet, deadline: Optional[int] = None, wait: Optional[Wait] = None,
            fault: Optional[Fault] = None, n: Optional[int] = None, link: Optional[Link] = None) -> Item:
        """Makes an item, behind all that are there."""
        item = Item(self.next_since, kind, g, deadline, wait, fault, n, link)
        self.next_since += 1
        self.items[item.since] = g.own[item.since] = item
        if kind == "kill":
            self.kills += 1
        return item

    def remove(self, item: Item) -> None:
        """Takes an item away."""
        del self.items[item.since]
        del item.greenlet.own[item.since]
        if item.kind == "kill":
            self.kills -= 1
        item.ready = None

    def touch(self, thing: Thing) -> None:
        """Called where an object has changed; a machine that asks all conditions anew does not care."""

    def touch_whom(self, whom: Handle) -> None:
        """Called where a greenlet has ended or a job is done."""

    def own_item(self, g: Greenlet, kind: str) -> Optional[Item]:
        """The first item of this kind that the greenlet has."""
        for item in g.own.values():
            if item.kind == kind:
                return item
        return None

    def outcome_of(self, whom: Handle) -> Optional[Outcome]:
        """How the greenlet ended or what the job came to; None before."""
        return self.greenlets[whom.g].outcome if isinstance(whom, G) else self.jobs[whom.j].outcome

    def ended(self, whom: Handle) -> bool:
        """Whether the greenlet has ended or the job is done."""
        return self.outcome_of(whom) is not None
