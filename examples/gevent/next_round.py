"""next_round: one that waits again is woken in a round of its own, behind what was begun meanwhile"""
from gcase import *

e = Event()


def k():
    P(2)


def a():
    e.wait()
    e.wait()
    P(1)


def b():
    e.wait()
    e.set()
    S(k)


def main():
    x = S(a)
    S(b)
    Z(0)
    e.set()
    e.clear()
    x.join()


run(main)
