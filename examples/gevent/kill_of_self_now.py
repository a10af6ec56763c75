"""kill_of_self_now: a greenlet kills itself without waiting: it goes on to its next wait"""
from gcase import *


def w():
    try:
        getcurrent().kill(block=False); P(1); sleep(0); P(2)
    except GreenletExit:
        P(3)
def main():
    a = S(w); a.join()


run(main)
