"""join_of_a_done_greenlet_with_joiners: join of a greenlet that is done, with an earlier joiner"""
from gcase import *


def w():
    return 1
def j(a):
    a.join(); P(1)
def main():
    a = S(w); b = S(j, a); sleep(0); a.join(); P(9); b.join()


run(main)
