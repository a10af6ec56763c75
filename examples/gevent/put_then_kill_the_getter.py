"""put_then_kill_the_getter: put, kill of the getter, put: the first getter has its item before the kill"""
from gcase import *


q = Queue()
def w():
    P(q.get())
def main():
    a = S(w); S(w); sleep(0); q.put(5); a.kill(block=False); q.put(6); sleep(0); P(q.qsize())


run(main)
