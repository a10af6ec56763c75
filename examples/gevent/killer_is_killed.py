"""killer_is_killed: a killer that waits for its slow target is killed itself"""
from gcase import *


def w():
    try:
        Z(100)
    finally:
        Z(20); P(1)
def k(a):
    try:
        a.kill(); P(2)
    except GreenletExit:
        P(3)
def main():
    a = S(w); sleep(0); b = S(k, a); Z(5); b.kill(); P(4); a.join()


run(main)
