"""prio_newest_least: the item is chosen at the completion, not at the put"""
from gcase import *


q = PriorityQueue()
def w():
    P(q.get())
def main():
    S(w); sleep(0); q.put(5); q.put(1); sleep(0); P(q.qsize())


run(main)
