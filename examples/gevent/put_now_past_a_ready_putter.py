"""put_now_past_a_ready_putter: a newcomer's put does not take a waiting putter's place"""
from gcase import *


q = Queue(1)
def p():
    q.put(2)
def main():
    q.put(1); S(p); sleep(0); P(q.get())
    try:
        q.put_nowait(3); P(1)
    except Full:
        P(0)
    P(q.get()); sleep(0); P(q.qsize())


run(main)
