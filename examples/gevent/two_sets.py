"""two_sets: a result put twice: the last one is read"""
from gcase import *


r = AsyncResult()
def w():
    P(r.get())
def main():
    a = S(w); sleep(0); r.set(1); r.set(2); a.join(); P(r.get_nowait())


run(main)
