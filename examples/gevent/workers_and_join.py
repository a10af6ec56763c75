"""workers_and_join: a pool of workers with a queue of tasks"""
from gcase import *


q = JoinableQueue(4); p = Pool(3)
def worker():
    while True:
        n = q.get()
        try:
            Z(10); P(n)
        finally:
            q.task_done()
def main():
    for _ in range(3):
        GS(p, worker)
    for i in range(1, 5):
        q.put(i)
    with T(100):
        q.join()
    p.kill(); P(q.unfinished_tasks)


run(main)
