# A producer is killed while it waits to put. Does its item come?
import gevent
from gevent.queue import Queue

lines = Queue(1)


def producer(name):
    try:
        lines.put(name + " 1")
        lines.put(name + " 2")
        return "all put"
    except gevent.GreenletExit:
        print(name, "is killed in put")
        lines.put(name + " last words")
        return "late"


def consumer(count):
    got = []
    for _ in range(count):
        got.append(lines.get())
        gevent.sleep(0.01)
    return got


a, b, c = [gevent.spawn(producer, name) for name in "abc"]
gevent.sleep(0)
b.kill(block=False)
c.kill(Exception("no more"), block=False)
gevent.sleep(0.01)
reader = gevent.spawn(consumer, 3)
gevent.joinall([a, b, c, reader])
print(a.value, b.value, type(c.exception).__name__, reader.value, lines.qsize())
