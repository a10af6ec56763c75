"""qjoin_and_a_new_put: unfinished falls to 0 and rises again before the joiner runs"""
from gcase import *


q = JoinableQueue()
def j():
    q.join(); P(q.unfinished_tasks)
def main():
    q.put(1); a = S(j); sleep(0); q.get(); q.task_done(); q.put(2); sleep(0); P(a.ready()); q.get(); q.task_done(); a.join()


run(main)
