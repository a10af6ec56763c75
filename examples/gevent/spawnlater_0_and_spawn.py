"""spawnlater_0_and_spawn: spawnlater 0 stands in the line of ready items, gevent's in the timers"""
from gcase import *


def w(n):
    P(n)
def main():
    a = SL(0, w, 1); b = S(w, 2); a.join(); b.join()


run(main)
