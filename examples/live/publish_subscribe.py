# One subscriber is slow, another comes late. What does each of them hear, and what is lost?
import gevent
from gevent.queue import Empty, Full, Queue


class Topic:
    def __init__(self):
        self.subscribers = {}

    def subscribe(self, name, size):
        inbox = Queue(size)
        self.subscribers[name] = inbox
        return inbox

    def publish(self, message):
        for name, inbox in list(self.subscribers.items()):
            try:
                inbox.put_nowait(message)
            except Full:
                print("drop", message, "for", name)


topic = Topic()


def subscriber(name, size, pause, patience):
    inbox = topic.subscribe(name, size)
    got = []
    try:
        while True:
            got.append(inbox.get(timeout=patience))
            gevent.sleep(pause)
    except Empty:
        del topic.subscribers[name]
        print(name, "leaves with", got)
    return got


def publisher():
    for i in range(8):
        topic.publish({"n": i})
        gevent.sleep(0.05)


subs = [gevent.spawn(subscriber, "quick", None, 0.01, 0.5),
        gevent.spawn(subscriber, "slow", 2, 0.13, 0.5)]
gevent.sleep(0)
p = gevent.spawn(publisher)
gevent.sleep(0.22)
subs.append(gevent.spawn(subscriber, "late", None, 0.0, 0.2))
gevent.joinall(subs)
print(len(topic.subscribers), [len(s.value) for s in subs])
