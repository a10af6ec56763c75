"""A worker takes an item and is killed before it reports it; whoever joins the queue waits for ever."""
import gevent
from gevent.queue import JoinableQueue

tasks = JoinableQueue()


def work():
    while True:
        item = tasks.get()
        gevent.sleep(0.01 * item)
        print('done', item)
        tasks.task_done()


workers = [gevent.spawn(work) for _ in range(2)]
for item in (1, 5, 1):
    tasks.put(item)
gevent.sleep(0.02)
workers[1].kill()
tasks.join()
