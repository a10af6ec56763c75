"""event_set_at_the_deadline: a timeout that equals the sleep of the setter"""
from gcase import *


e = Event()
def s():
    Z(10); e.set()
def w():
    P(e.wait(timeout=W(10)))
def main():
    a = S(s); b = S(w); a.join(); b.join()


run(main)
