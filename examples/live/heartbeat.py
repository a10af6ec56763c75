# Two members beat. One of them falls silent and comes back. When does the monitor know?
import time

import gevent
from gevent.event import Event


def now():
    return 10 * round(100 * (time.monotonic() - start))


class Monitor:
    def __init__(self, patience):
        self.patience, self.beats = patience, {}

    def watch(self, name):
        beat, is_up = self.beats[name], True
        while True:
            if beat.wait(timeout=self.patience):
                beat.clear()
                if not is_up:
                    print(now(), name, "is back")
                is_up = True
            elif is_up:
                print(now(), name, "is silent")
                is_up = False

    def join(self, name):
        self.beats[name] = Event()
        return gevent.spawn(self.watch, name)


def member(name, pauses):
    for pause in pauses:
        gevent.sleep(pause)
        monitor.beats[name].set()


start = time.monotonic()
monitor = Monitor(patience=0.1)
watchers = [monitor.join("ann"), monitor.join("bob")]
members = [gevent.spawn(member, "ann", [0.04] * 10), gevent.spawn(member, "bob", [0.04, 0.04, 0.25, 0.04])]
gevent.joinall(members)
gevent.killall(watchers)
print(now(), "ends")
