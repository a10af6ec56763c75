"""leave_by_link: members of a group whose only member has ended"""
from gcase import *

m = Group()


def k():
    pass


def main():
    a = GS(m, k)
    Z(0)
    P(bool(a.ready()))
    P(len(m))


run(main)
