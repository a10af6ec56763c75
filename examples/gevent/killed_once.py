"""killed_once: a group is killed again, and a member that survived the first time"""
from gcase import *

m = Group()


def k():
    try:
        Z(10)
    except BaseException:
        Z(10)
    P(1)


def main():
    GS(m, k)
    Z(0)
    m.kill(block=False)
    Z(0)
    m.kill()


run(main)
