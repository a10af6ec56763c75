"""join_link_join_in_order: joiners and links stand in one order of making"""
from gcase import *


def w():
    Z(5); return 4
def j(a):
    a.join(); P(0)
def f(g):
    P(1)
def main():
    a = S(w); S(j, a); sleep(0); a.link(f); a.join(); P(2); sleep(0)


run(main)
