"""peeker_then_getter: one put serves a peeker and the getter behind it"""
from gcase import *


q = Queue()
def k():
    P(q.peek())
def g():
    P(q.get())
def main():
    a = S(k); b = S(g); sleep(0); q.put(5); sleep(0); sleep(0); P(q.qsize()); P(a.ready()); P(b.ready())


run(main)
