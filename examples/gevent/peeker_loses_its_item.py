"""peeker_loses_its_item: a ready peeker loses its item to a get"""
from gcase import *


q = Queue()
def k():
    P(q.peek())
def main():
    a = S(k); sleep(0); q.put(5); P(q.get_nowait()); sleep(0); q.put(6); a.join()


run(main)
