"""middle_putter_killed: a killed putter's item never enters"""
from gcase import *


q = Queue(1)
def p(n):
    q.put(n)
def main():
    S(p, 1); b = S(p, 2); S(p, 3); sleep(0); b.kill(block=False); P(q.get()); P(q.get())


run(main)
