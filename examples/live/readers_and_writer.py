# Two read, one wants to write, and a third reader comes behind it. Who waits for whom?
from contextlib import contextmanager

import gevent
from gevent.lock import Semaphore


class SharedLock:
    """Many may read, or one may write. A writer that waits keeps later readers out."""

    def __init__(self):
        self.door, self.room, self.readers = Semaphore(1), Semaphore(1), 0

    @contextmanager
    def reading(self):
        with self.door:
            if self.readers == 0:
                self.room.acquire()
            self.readers += 1
        try:
            yield
        finally:
            self.readers -= 1
            if self.readers == 0:
                self.room.release()

    @contextmanager
    def writing(self):
        with self.door, self.room:
            yield


lock = SharedLock()
pages = ["first"]


def reader(name, start, seconds):
    gevent.sleep(start)
    with lock.reading():
        print(name, "begins to read")
        gevent.sleep(seconds)
        print(name, "has read", pages)


def writer(name, start, seconds):
    gevent.sleep(start)
    with lock.writing():
        print(name, "begins to write")
        gevent.sleep(seconds)
        pages.append(name + "'s")
        print(name, "has written")


gevent.joinall([
    gevent.spawn(reader, "ann", 0, 0.04),
    gevent.spawn(reader, "bob", 0.01, 0.05),
    gevent.spawn(writer, "cy", 0.02, 0.03),
    gevent.spawn(reader, "dee", 0.03, 0.01),
    gevent.spawn(reader, "eve", 0.05, 0.02),
])
