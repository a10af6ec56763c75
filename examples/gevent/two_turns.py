"""two_turns: plain round robin"""
from gcase import *


def w(n):
    P(n); sleep(0); P(n + 10)
def main():
    a = S(w, 1); b = S(w, 2); a.join(); b.join()


run(main)
