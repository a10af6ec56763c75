"""killed_then_released: kill, then release, of the first waiter: the unit goes to the second"""
from gcase import *


s = Semaphore(0)
def w(n):
    s.acquire(); P(n)
def main():
    a = S(w, 1); b = S(w, 2); sleep(0); a.kill(block=False); s.release(); b.join(); P(s.counter)


run(main)
