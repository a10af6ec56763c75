"""join_before_place: a pool of one place empties, with a joiner and a spawner waiting"""
from gcase import *

p = Pool(1)


def k():
    pass


def w():
    p.join()
    P(1)


def main():
    S(w)
    GS(p, k)
    GS(p, k)
    P(2)


run(main)
