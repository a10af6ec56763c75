"""set_then_clear: event set then clear: the waiters of the set wake, a later one does not"""
from gcase import *


e = Event()
def w(n):
    e.wait(); P(n)
def main():
    S(w, 1); S(w, 2); sleep(0); e.set(); e.clear(); P(e.wait(timeout=W(5)))


run(main)
