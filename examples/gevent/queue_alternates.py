"""queue_alternates: a peeker and a putter wait on one queue"""
from gcase import *

q = Queue(2)


def g():
    x = q.get()
    P(x)


def p():
    x = q.peek()
    P(x)


def w():
    q.put(1)
    q.put(2)
    q.put(3)
    P(9)


def main():
    S(g)
    S(p)
    S(w)
    Z(0)
    Z(0)
    Z(0)


run(main)
