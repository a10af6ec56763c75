"""kill_of_self: a greenlet kills itself, waiting"""
from gcase import *


def w():
    try:
        getcurrent().kill(); P(1)
    except GreenletExit:
        P(2)
    sleep(0); P(3)
def main():
    a = S(w); a.join(); P(a.value)


run(main)
