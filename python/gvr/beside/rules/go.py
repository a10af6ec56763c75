"""The rules of Go (1.19)."""
from typing import Any, List, Optional, Tuple

from ...model.items import Item
from .cancels import LeavesAtOnce
from .rule import GAP, Rule


class RunsNext(Rule):
    name = 'runs_next'
    says = 'who becomes ready last runs next, and the one that was to run next goes to the end; so does a sleep of 0'
    source = 'runtime/proc.go, newproc and ready: runqput with next; goschedImpl: globrunqput'

    def __init__(self, *arguments: Any) -> None:
        super().__init__(*arguments)
        self.runs_next: Optional[Item] = None

    def place_of(self, item: Item) -> int:
        end = super().place_of(item)
        if item.kind == 'wake' and item.parked.kind == 'sleep' and not self.looking:
            return end                                        # a sleep of 0: Gosched puts it on the global queue
        before, self.runs_next = self.runs_next, item
        if before is not None and before.ready is not None and before.ready % GAP != 0:
            before.ready = end
        return self.delivering + 1 if self.delivering >= 0 else 1


class CloseReversed(Rule):
    name = 'close_reversed'
    says = 'set and the end of a greenlet make those who wait for it ready in reverse order'
    source = 'runtime/chan.go, closechan: pushes the receivers on a list, and pops them from it'

    def rank(self, item: Item) -> Tuple[int, int]:
        look, order = super().rank(item)
        is_closed = item.kind == 'wake' and item.parked.kind in ('wait', 'join', 'get')
        return look, -item.since if is_closed else order


RULES: List[type] = [RunsNext, CloseReversed, LeavesAtOnce]
