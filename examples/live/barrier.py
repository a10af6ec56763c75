# Three workers meet after each round. Can the fast one run ahead, and what if one of the three stays away?
import gevent
from gevent.event import Event


class Broken(Exception):
    pass


class Barrier:
    """Who comes waits for the others. The last one opens the gate, and the next round has a gate of its own."""

    def __init__(self, parties):
        self.parties, self.waiting = parties, 0
        self.gate = Event()

    def wait(self, timeout=None):
        gate = self.gate
        self.waiting += 1
        if self.waiting == self.parties:
            self.waiting = 0
            self.gate = Event()
            gate.set()
        elif not gate.wait(timeout):
            self.waiting -= 1
            raise Broken("%d stayed away" % (self.parties - self.waiting - 1))


barrier = Barrier(3)


def worker(name, seconds, rounds):
    for number in range(1, rounds + 1):
        gevent.sleep(seconds)
        print(name, "reaches", number)
        try:
            barrier.wait(timeout=0.2)
        except Broken as error:
            print(name, "goes home,", error)
            return
        print(name, "leaves", number)


gevent.joinall([
    gevent.spawn(worker, "hare", 0.01, 3),
    gevent.spawn(worker, "dog", 0.02, 3),
    gevent.spawn(worker, "snail", 0.05, 2),
])
