"""killer_and_link: who comes first after a kill: the link made before, or the killer"""
from gcase import *


def w():
    Z(100)
def f(g):
    P(1)
def main():
    a = S(w); sleep(0); a.link(f); a.kill(); P(2); sleep(0)


run(main)
