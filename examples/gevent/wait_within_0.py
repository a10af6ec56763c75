"""wait_within_0: within 0: lets the others run a turn, and is late all the same"""
from gcase import *


e = Event()
def s():
    e.set()
def main():
    a = S(s); P(e.wait(timeout=0)); a.join()


run(main)
