"""two_releases_two_waiters_and_a_newcomer: a spare third unit may go to the newcomer"""
from gcase import *


s = Semaphore(0)
def w(n):
    s.acquire(); P(n)
def main():
    S(w, 1); S(w, 2); sleep(0); s.release(); s.release(); s.release(); P(s.acquire(blocking=False)); sleep(0); P(s.counter)


run(main)
