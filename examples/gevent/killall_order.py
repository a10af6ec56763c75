"""killall_order: killall sends in list order"""
from gcase import *


def w(n):
    try:
        Z(100)
    finally:
        P(n)
def main():
    a = S(w, 1); b = S(w, 2); c = S(w, 3); sleep(0); killall([c, a, b]); P(9)


run(main)
