"""get_now_past_a_ready_getter: a newcomer's get does not take a waiting getter's item"""
from gcase import *


q = Queue()
def w():
    P(q.get())
def main():
    a = S(w); sleep(0); q.put(5)
    try:
        P(q.get_nowait())
    except Empty:
        P(0)
    q.put(6); a.join()


run(main)
