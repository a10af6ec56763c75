# Writes go together, three at most, and none waits longer than 50 ms. Which ones go together?
import gevent
from gevent.event import AsyncResult
from gevent.queue import Queue


class Batcher:
    def __init__(self, write, most, patience):
        self.write, self.most, self.patience = write, most, patience
        self.inbox = Queue()
        self.loop = gevent.spawn(self.run)

    def add(self, item):
        written = AsyncResult()
        self.inbox.put((item, written))
        return written.get()

    def run(self):
        while True:
            batch = [self.inbox.get()]
            with gevent.Timeout(self.patience, False):
                while len(batch) < self.most:
                    batch.append(self.inbox.get())
            self.write([item for item, _ in batch])
            for _, written in batch:
                written.set(len(batch))


def write(items):
    gevent.sleep(0.004)
    print("write", *items)


def client(name, start):
    gevent.sleep(start)
    print(name, "went with", batcher.add(name) - 1, "others")


batcher = Batcher(write, most=3, patience=0.05)
starts = {"a": 0, "b": 0.01, "c": 0.02, "d": 0.03, "e": 0.06, "f": 0.1}
gevent.joinall([gevent.spawn(client, name, start) for name, start in starts.items()])
batcher.loop.kill()
