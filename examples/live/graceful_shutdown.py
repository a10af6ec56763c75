# Workers are killed while they still have something to write down. Is it written, and how long does main wait?
import gevent
from gevent.event import Event
from gevent.queue import Queue

journal = Queue()
stopped = Event()


def worker(name, flush):
    done = 0
    try:
        while True:
            gevent.sleep(0.1)
            done += 1
    except gevent.GreenletExit:
        print(name, "is told to stop after", done)
        raise
    finally:
        gevent.sleep(flush)
        journal.put("%s flushed %d" % (name, done))
        print(name, "flushed")


def writer():
    written = []
    while not (stopped.is_set() and journal.empty()):
        try:
            written.append(journal.get(timeout=0.2))
        except Exception:
            print("nothing to write")
    return written


w = gevent.spawn(writer)
workers = [gevent.spawn(worker, "ann", 0.04), gevent.spawn(worker, "bob", 0.01),
           gevent.spawn(worker, "cy", 0.5)]
gevent.sleep(0.35)
try:
    gevent.killall(workers, timeout=0.3)
except gevent.Timeout:
    print("killall does not wait longer")
print("after killall", [g.ready() for g in workers])
gevent.joinall(workers)
stopped.set()
print(w.get())
