"""fault_in_a_link: a fault in one link leaves the next alone"""
from gcase import *


def w():
    pass
def f(g):
    raise Err(1)
def h(g):
    P(2)
def main():
    a = S(w); a.link(f); a.link(h); a.join(); P(3); sleep(0)


run(main)
