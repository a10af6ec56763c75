# The last of three stages is slow. How far do the others run ahead, and how does the end come through?
import gevent
from gevent.queue import Queue

END = object()


def source(out, lines):
    for line in lines:
        out.put(line)
        print("read", line)
    out.put(END)


def stage(name, work, seconds, inbox, out):
    for line in iter(inbox.get, END):
        gevent.sleep(seconds)
        out.put(work(line))
    print(name, "ends")
    out.put(END)


def store(inbox, seconds, stored):
    for line in iter(inbox.get, END):
        gevent.sleep(seconds)
        stored.append(line)
        print("stored", line)
    return len(stored)


raw, clean, stored = Queue(1), Queue(1), []
jobs = [
    gevent.spawn(source, raw, ["ant", "bee", "cat", "dog", "eel"]),
    gevent.spawn(stage, "upper", str.upper, 0.01, raw, clean),
    gevent.spawn(store, clean, 0.04, stored),
]
gevent.joinall(jobs)
print(jobs[-1].value, stored)
