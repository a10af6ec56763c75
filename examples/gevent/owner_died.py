"""owner_died: a dead owner never frees its lock"""
from gcase import *


l = RLock()
def o():
    l.acquire()
def w():
    l.acquire()
def main():
    S(o); b = S(w); b.join()


run(main)
