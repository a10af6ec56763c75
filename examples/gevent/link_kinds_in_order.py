"""link_kinds_in_order: links are called in order of making, then the joiner of later wakes"""
from gcase import *


def w():
    return 4
def f(g):
    P(1)
def h(g):
    P(2)
def h2(g):
    P(2)
def m(g):
    P(3)
def main():
    a = S(w); a.link(f); a.link_exception(h); a.link_value(m); a.link(h2); a.join(); P(9); sleep(0)


run(main)
