"""get_within_0: get within 0 of a greenlet about to start"""
from gcase import *


def w():
    return 4
def main():
    a = S(w)
    try:
        P(a.get(timeout=0))
    except Timeout:
        P(0)
    a.join()


run(main)
