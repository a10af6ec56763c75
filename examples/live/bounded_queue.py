# A queue has two places. How far ahead of its consumers does the producer run, and who gets the last line?
import gevent
from gevent.queue import Queue

STOP = object()
lines = Queue(maxsize=2)


def producer():
    for i in range(6):
        lines.put("line %d" % i)
        print("put", i)
    for _ in range(2):
        lines.put(STOP)
    return "produced"


def consumer(name, seconds):
    seen = 0
    while True:
        line = lines.get()
        if line is STOP:
            print(name, "stops after", seen)
            return seen
        gevent.sleep(seconds)
        seen += 1
        print(name, line)


producing = gevent.spawn(producer)
consuming = [gevent.spawn(consumer, "fast", 0.05), gevent.spawn(consumer, "slow", 0.12)]
gevent.joinall([producing, *consuming])
print(producing.value, [g.value for g in consuming])
