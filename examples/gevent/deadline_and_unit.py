"""deadline_and_unit: the unit arrives in the turn of the deadline"""
from gcase import *


s = Semaphore(0)
def r():
    Z(10); s.release()
def w():
    P(s.acquire(timeout=W(10)))
def main():
    S(r); a = S(w); a.join(); P(s.counter)


run(main)
