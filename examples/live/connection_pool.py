# Five queries share two connections. Who goes without one, and what becomes of a connection that hangs?
import gevent
from gevent.lock import BoundedSemaphore


class Connections:
    def __init__(self, n):
        self.slots = BoundedSemaphore(n)
        self.free = ["c%d" % i for i in range(n)]
        self.broken = 0

    def query(self, who, seconds, patience):
        if not self.slots.acquire(timeout=patience):
            print(who, "gave up")
            return None
        conn = self.free.pop(0)
        try:
            with gevent.Timeout(0.3):
                gevent.sleep(seconds)
                print(who, "had", conn)
                return conn
        except gevent.Timeout:
            self.broken += 1
            print(who, "broke", conn)
        finally:
            self.free.append(conn)
            self.slots.release()


pool = Connections(2)
jobs = [gevent.spawn(pool.query, *a) for a in (
    ("a", 0.2, 1), ("b", 0.5, 1), ("c", 0.1, 0.15), ("d", 0.1, 0.25), ("e", 0.05, 1))]
gevent.joinall(jobs)
print([j.value for j in jobs], "free", sorted(pool.free), "counter", pool.slots.counter,
      "broken", pool.broken)
