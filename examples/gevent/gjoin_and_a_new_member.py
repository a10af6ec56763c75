"""gjoin_and_a_new_member: a group is empty for a moment and gets a member before the joiner runs"""
from gcase import *


g = Group()
def f():
    Z(5)
def j():
    g.join(); P(len(g))
def main():
    b = GS(g, f); a = S(j); b.join(); GS(g, f); a.join()


run(main)
