"""pool_place_overtaken: the joiner of the last member asks for the place that a waiter is to have"""
from gcase import *


p = Pool(1)
def f(n):
    P(n); Z(5)
def s():
    GS(p, f, 2)
def main():
    a = GS(p, f, 1); S(s); a.join(); GS(p, f, 3); p.join()


run(main)
