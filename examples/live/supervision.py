# A child fails, and its supervisor starts it again. When does it give up?
import gevent
from gevent.event import AsyncResult


class Supervisor:
    def __init__(self, most):
        self.most, self.failures, self.children = most, {}, {}
        self.gave_up = AsyncResult()

    def start(self, name, function, *args):
        child = gevent.spawn(function, *args)
        self.children[name] = child
        child.link_exception(lambda g: self.failed(name, g, function, args))
        child.link_value(lambda g: print(name, "ended with", g.value))

    def failed(self, name, child, function, args):
        n = self.failures[name] = self.failures.get(name, 0) + 1
        print(name, "failed", n, type(child.exception).__name__, child.exception)
        if n == self.most:
            self.gave_up.set((name, n))
        else:
            gevent.sleep(0.02 * n)
            self.start(name, function, *args)


crashes = []


def crash(after):
    gevent.sleep(after)
    crashes.append(after)
    raise OSError("disk")


def learn(state):
    gevent.sleep(0.03)
    state.append(1)
    if len(state) < 3:
        raise ValueError(len(state))
    return "well"


supervisor = Supervisor(3)
supervisor.start("crasher", crash, 0.3)
supervisor.start("learner", learn, [])
print(supervisor.gave_up.get(timeout=1))
print({k: (g.successful(), g.value) for k, g in sorted(supervisor.children.items())}, len(crashes))
