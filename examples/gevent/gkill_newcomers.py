"""gkill_newcomers: a member that comes while its group is being killed"""
from gcase import *

m = Group()


def k(n):
    P(n)


def w():
    GS(m, k, 1)


def main():
    GS(m, k, 2)
    S(w)
    m.kill()
    Z(0)
    Z(0)


run(main)
