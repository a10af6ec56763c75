"""newcomer_and_unit: a newcomer asks for a unit that a waiter is to have"""
from gcase import *


s = Semaphore(0)
def w():
    s.acquire()
def main():
    a = S(w); sleep(0); s.release(); P(s.acquire(blocking=False)); a.join()


run(main)
