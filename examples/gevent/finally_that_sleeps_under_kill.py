"""finally_that_sleeps_under_kill: kill waits for a finally that sleeps"""
from gcase import *


def w():
    try:
        Z(100)
    finally:
        Z(5); P(1)
def main():
    a = S(w); sleep(0); a.kill(); P(2); P(a.value)


run(main)
