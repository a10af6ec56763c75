# An urgent task comes while others wait. When is it done, and what does the thread pool answer meanwhile?
import gevent
from gevent.queue import LifoQueue, PriorityQueue
from gevent.threadpool import ThreadPool

todo, undo = PriorityQueue(), LifoQueue()
threads = ThreadPool(2)


def slow_square(n):
    if n == 7:
        raise ValueError("seven")
    return n * n


def scheduler():
    while True:
        when, name, n = todo.get()
        if name == "end":
            return
        undo.put(name)
        try:
            print(when, name, threads.apply(slow_square, (n,)))
        except ValueError as error:
            print(when, name, "failed:", error)


for item in ((5, "mail", 2), (1, "boot", 3), (3, "scan", 7), (3, "log", 4), (9, "end", 0)):
    todo.put(item)
running = gevent.spawn(scheduler)
gevent.sleep(0)
todo.put((2, "urgent", 5))
running.join()
print([undo.get() for _ in range(undo.qsize())], undo.empty())
print(threads.map(slow_square, [1, 2, 3]))
