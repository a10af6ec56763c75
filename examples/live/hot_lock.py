# Two loops share a lock and never sleep outside of it. Do they take turns?
import gevent
from gevent.lock import Semaphore

lock = Semaphore(1)


def loop(name):
    for i in range(3):
        with lock:
            gevent.sleep(0.01)
            print(name, i)


gevent.joinall([gevent.spawn(loop, "a"), gevent.spawn(loop, "b")])
