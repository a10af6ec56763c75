"""count_stops: joinall of two ended ones with count 1"""
from gcase import *


def w():
    pass


def main():
    a = S(w)
    b = S(w)
    l = joinall([a, b], count=1)
    P(len(l))


run(main)
