"""late_reads: a result is put at the deadline of a wait for it"""
from gcase import *

r = AsyncResult()


def w():
    x = r.wait(timeout=W(5))
    P(x)


def main():
    a = S(w)
    Z(5)
    r.set(7)
    a.join()


run(main)
