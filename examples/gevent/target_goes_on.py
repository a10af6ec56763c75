"""target_goes_on: a target that survives its kill"""
from gcase import *


def w():
    try:
        Z(100)
    except GreenletExit:
        Z(50); P(7)
def main():
    a = S(w); sleep(0); a.kill(timeout=W(10)); P(a.ready()); a.join()


run(main)
