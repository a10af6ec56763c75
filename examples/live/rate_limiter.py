# Three calls are allowed in 200 ms, and eight come. When does each begin?
import gevent
from gevent.lock import Semaphore


class Limiter:
    def __init__(self, calls, period):
        self.period = period
        self.bucket = Semaphore(calls)

    def __enter__(self):
        self.bucket.acquire()
        gevent.spawn_later(self.period, self.bucket.release)
        return self

    def __exit__(self, *_):
        pass


limiter = Limiter(3, 0.2)


def call(i):
    with limiter:
        print("call", i)
        gevent.sleep(0.03)
    return i


def burst(first, n):
    return [gevent.spawn(call, i) for i in range(first, first + n)]


calls = burst(0, 5)
gevent.sleep(0.22)
calls += burst(5, 3)
gevent.joinall(calls)
gevent.sleep(0.5)
print([c.value for c in calls], limiter.bucket.counter)
