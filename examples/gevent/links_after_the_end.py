"""links_after_the_end: links made after the end"""
from gcase import *


def w():
    return 4
def f(g):
    P(g.value)
def mark(g):
    print("mark 8")
def main():
    a = S(w); a.join(); a.link(f); a.link_exception(f); a.rawlink(mark); sleep(0)


run(main)
