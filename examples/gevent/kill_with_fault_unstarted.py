"""kill_with_fault_unstarted: an unstarted greenlet is killed with a fault of the caller's"""
from gcase import *


def w():
    P(1)
def main():
    a = S(w); a.kill(Err(3)); P(a.successful())
    try:
        a.get()
    except Err as e:
        P(e)


run(main)
