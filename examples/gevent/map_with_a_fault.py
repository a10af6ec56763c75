"""map_with_a_fault: map waits for all before it raises"""
from gcase import *


p = Pool(2)
def f(x):
    number(getcurrent())
    if x == 2:
        raise Err(9)
    Z(5)
    if x == 3:
        Z(10)
    P(x); return x
def main():
    try:
        P(p.map(f, [1, 2, 3]))
    except Err as e:
        P(e)
    Z(30)


run(main)
