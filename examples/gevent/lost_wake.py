"""lost_wake: a wait on a set event, whose waiter is killed before it runs"""
from gcase import *

e = Event()


def w():
    e.wait()


def main():
    a = S(w)
    Z(0)
    a.kill(block=False)
    e.set()
    e.wait()
    P(1)


run(main)
