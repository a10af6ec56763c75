"""lost_set: an event is set and cleared by one that it woke, while another waits for it again"""
from gcase import *

e = Event()


def a():
    e.wait()
    e.wait()


def b():
    e.wait()
    e.set()
    e.clear()


def main():
    x = S(a)
    S(b)
    Z(0)
    e.set()
    e.clear()
    x.join(timeout=W(5))
    P(bool(x.ready()))


run(main)
