"""The rule that says what `planted` changes."""
from typing import Set

from gvr.beside.rules import Rule
from gvr.model import Item


class OvertakeTwice(Rule):
    name = 'overtake_twice'
    says = 'one that was woken for a unit lets the others run once more before it takes it'

    def __init__(self, *arguments: object) -> None:
        super().__init__(*arguments)
        self.hopped: Set[int] = set()

    def deliver(self, item: Item) -> None:
        waits = item.kind == 'wake' and item.parked.kind == 'acquire' and self.own_item(item.greenlet, 'late') is None
        if waits and item.since not in self.hopped:
            self.hopped.add(item.since)
            self.too_late.add(item.since)
            item.ready = None
            self.settle()
        else:
            super().deliver(item)


RULES = [OvertakeTwice]
