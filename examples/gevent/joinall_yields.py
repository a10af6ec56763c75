"""joinall_yields: joinall of one that has ended"""
from gcase import *


def w():
    pass


def v():
    P(1)


def main():
    a = S(w)
    Z(0)
    S(v)
    joinall([a])
    P(2)


run(main)
