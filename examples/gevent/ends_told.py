"""ends_told: the end falls on the deadline of the joinall"""
from gcase import *


def w():
    Z(10)


def main():
    a = S(w)
    Z(5)
    l = joinall([a], timeout=W(5))
    P(bool(a.ready()))
    P(len(l))


run(main)
