"""map_by_helper: who begins first: the members of a map, or what is spawned next"""
from gcase import *

m = Group()


def k(n):
    number(getcurrent())
    P(n)


def w():
    m.map(k, [1])


def v():
    P(2)


def main():
    S(w)
    Z(0)
    S(v)
    Z(0)
    Z(0)


run(main)
