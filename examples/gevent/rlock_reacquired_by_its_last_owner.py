"""rlock_reacquired_by_its_last_owner: release and acquire again with a waiter behind"""
from gcase import *


l = RLock()
def w():
    l.acquire(); P(2); l.release()
def main():
    l.acquire(); a = S(w); sleep(0); l.release(); l.acquire(); P(1); l.release(); a.join()


run(main)
