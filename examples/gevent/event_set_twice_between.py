"""event_set_twice_between: the first waiter clears the event before the second wakes"""
from gcase import *


e = Event()
def w(n):
    e.wait(); P(n); e.clear(); e.wait(); P(n + 10)
def main():
    S(w, 1); S(w, 2); sleep(0); e.set(); sleep(0); P(e.is_set()); e.set(); sleep(0); sleep(0)


run(main)
