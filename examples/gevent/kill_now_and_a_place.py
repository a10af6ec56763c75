"""kill_now_and_a_place: a killed member keeps its place until its end"""
from gcase import *


p = Pool(1)
def f(n):
    try:
        Z(20); P(n)
    finally:
        P(0)
def main():
    a = GS(p, f, 1); sleep(0); a.kill(block=False); P(len(p)); b = GS(p, f, 2); P(len(p)); b.kill()


run(main)
