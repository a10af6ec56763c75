"""unlink_inside_a_link: the first link takes the second away before it was called"""
from gcase import *


def w():
    pass
def h(g):
    P(2)
def f(g):
    P(1); g.unlink(h)
def main():
    a = S(w); a.link(f)
    a.rawlink(h)   # rawlink, so that unlink finds the same callable
    a.join(); sleep(0)


run(main)
