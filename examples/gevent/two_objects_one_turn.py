"""two_objects_one_turn: release, set, release: each effect has its own place in the line"""
from gcase import *


s = Semaphore(0); e = Event()
def a(n):
    s.acquire(); P(n)
def b():
    e.wait(); P(3)
def main():
    S(a, 1); S(a, 2); S(b); sleep(0); s.release(); e.set(); s.release(); sleep(0)


run(main)
