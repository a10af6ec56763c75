"""qget_within_0: qget within 0 with a putter about to start"""
from gcase import *


q = Queue()
def s():
    q.put(5)
def main():
    a = S(s)
    try:
        P(q.get(timeout=0))
    except Empty:
        P(0)
    a.join()


run(main)
