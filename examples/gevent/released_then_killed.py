"""released_then_killed: release, then kill, of a granted waiter: the grant is delivered first"""
from gcase import *


s = Semaphore(0)
def w(n):
    s.acquire(); P(n)
def main():
    a = S(w, 1); b = S(w, 2); sleep(0); s.release(); a.kill(block=False); sleep(0); P(s.counter); P(b.ready())


run(main)
