"""map_over_one_place: map over a pool of one place"""
from gcase import *


p = Pool(1)
def f(x):
    Z(5); return x * 2
def main():
    P(p.map(f, [3, 4]))


run(main)
