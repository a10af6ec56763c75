"""acquire_within_0: acquire within 0 with a releaser about to start"""
from gcase import *


s = Semaphore(0)
def r():
    s.release()
def main():
    a = S(r); P(s.acquire(timeout=0)); a.join(); P(s.counter)


run(main)
