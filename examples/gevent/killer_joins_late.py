"""killer_joins_late: a killer, and one that joined meanwhile, wait for one that survived its kill"""
from gcase import *


def w():
    try:
        Z(5)
    except BaseException:
        pass
    Z(5)


def k(h):
    h.kill()
    P(1)


def main():
    a = S(w)
    b = S(k, a)
    Z(0)
    a.join()
    P(2)
    b.join()


run(main)
