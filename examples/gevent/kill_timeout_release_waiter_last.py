"""kill_timeout_release_waiter_last: the same three in one turn, the waiter began last: release and kill come first, the timeout still wins"""
from gcase import *


s = Semaphore(0)
def r():
    Z(10); s.release()
def k(t):
    Z(10); t.kill(block=False)
def w():
    try:
        with T(10):
            s.acquire(); P(1)
    except Timeout as t:
        P(t)
    except GreenletExit:
        P(3)
def main():
    a = gevent.Greenlet(w); number(a); b = gevent.Greenlet(r); number(b); c = gevent.Greenlet(k, a); number(c)
    b.start(); c.start(); a.start(); a.join(); b.join(); c.join(); P(s.counter)


run(main)
