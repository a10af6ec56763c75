"""killall_late: killall with a timeout that elapses"""
from gcase import *


def w():
    try:
        Z(20)
    except BaseException:
        Z(20)


def main():
    a = S(w)
    Z(0)
    killall([a], timeout=W(5))
    P(1)


run(main)
