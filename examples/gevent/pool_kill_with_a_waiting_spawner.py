"""pool_kill_with_a_waiting_spawner: a pool is killed while a spawner waits for its place"""
from gcase import *


p = Pool(1)
def f(n):
    try:
        Z(20); P(n)
    finally:
        P(0)
def s():
    GS(p, f, 2); P(7)
def main():
    a = GS(p, f, 1); c = S(s); sleep(0); p.kill(); P(9); P(len(p)); c.join(); p.join()


run(main)
