"""peek_now_past_a_ready_getter: a peek does not see an item that a waiting getter is to have"""
from gcase import *


q = Queue()
def w():
    P(q.get())
def main():
    a = S(w); sleep(0); q.put(5)
    try:
        P(q.peek_nowait())
    except Empty:
        P(0)
    a.join()


run(main)
