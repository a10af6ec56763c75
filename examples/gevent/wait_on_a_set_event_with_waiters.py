"""wait_on_a_set_event_with_waiters: wait on a set event whose waiters have not run yet"""
from gcase import *


e = Event()
def w():
    e.wait(); P(1)
def main():
    a = S(w); sleep(0); e.set(); e.wait(); P(9); a.join()


run(main)
