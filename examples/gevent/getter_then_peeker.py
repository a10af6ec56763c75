"""getter_then_peeker: a getter in front leaves the peeker nothing"""
from gcase import *


q = Queue()
def k():
    P(q.peek())
def g():
    P(q.get())
def main():
    a = S(g); b = S(k); sleep(0); q.put(5); sleep(0); sleep(0); P(q.qsize()); P(a.ready()); P(b.ready())


run(main)
