"""kill_timeout_release_waiter_first: kill, timeout and release fall in one turn, the waiter began first"""
from gcase import *


s = Semaphore(0)
def r():
    Z(10); s.release()
def k(t):
    Z(10); t.kill(block=False)
def w():
    try:
        with T(10):
            s.acquire(); P(1)
    except Timeout as t:
        P(t)
    except GreenletExit:
        P(3)
def main():
    a = S(w); b = S(r); c = S(k, a); a.join(); b.join(); c.join(); P(s.counter)


run(main)
