# Three workers take five tasks from a queue. How does main know that the last one is done, and what becomes of
# the workers?
import gevent
from gevent.pool import Pool
from gevent.queue import JoinableQueue

tasks = JoinableQueue()
results = []


def worker(name):
    while True:
        n = tasks.get()
        try:
            gevent.sleep(0.1 * n)
            results.append((name, n * n))
            print(name, "did", n)
        finally:
            tasks.task_done()


def main():
    pool = Pool(3)
    for name in ("ann", "bob", "cy"):
        pool.spawn(worker, name)
    for n in (3, 1, 2, 2, 1):
        tasks.put(n)
    tasks.join()
    pool.kill()
    print(sorted(results))


main()
