"""cget_yields: get from a channel on which an offer waits"""
from gcase import *

c = Channel()


def w():
    c.put(7)


def v():
    P(1)


def main():
    S(w)
    Z(0)
    S(v)
    x = c.get()
    P(x)


run(main)
