"""fair_critical_section: two loops over one critical section: alternation or starvation"""
from gcase import *


s = Semaphore(1)
def w(n):
    for _ in range(3):
        s.acquire(); P(n); sleep(0); s.release()
def main():
    a = S(w, 1); b = S(w, 2); a.join(); b.join()


run(main)
