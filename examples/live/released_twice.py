# A finally releases a lock whose acquire was given up. Who is in the room then, and which lock tells?
import gevent
from gevent.lock import BoundedSemaphore, Semaphore

room = []


def careless(name, lock, start, seconds):
    gevent.sleep(start)
    try:
        if not lock.acquire(timeout=0.02):
            print(name, "goes away")
            return
        room.append(name)
        print("in the room:", *room)
        gevent.sleep(seconds)
        room.remove(name)
    finally:
        lock.release()


for lock in Semaphore(1), BoundedSemaphore(1):
    print(type(lock).__name__)
    visitors = [
        gevent.spawn(careless, "ann", lock, 0, 0.1),
        gevent.spawn(careless, "bob", lock, 0.01, 0.1),
        gevent.spawn(careless, "cy", lock, 0.04, 0.1),
    ]
    gevent.joinall(visitors)
    print([type(visitor.exception).__name__ for visitor in visitors], lock.counter)
