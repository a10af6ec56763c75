"""group_kill_order: the members of a killed group end in order of admission"""
from gcase import *


g = Group()
def w(n):
    try:
        Z(100)
    finally:
        P(n)
def main():
    for i in range(1, 7):
        GS(g, w, i)
    sleep(0); g.kill()


run(main)
