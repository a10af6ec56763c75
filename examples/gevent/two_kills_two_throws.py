"""two_kills_two_throws: each kill is a throw of its own"""
from gcase import *


def w():
    try:
        Z(100)
    except GreenletExit:
        P(1)
    try:
        Z(100)
    except GreenletExit:
        P(2)
def main():
    a = S(w); sleep(0); a.kill(block=False); a.kill(block=False); a.join()


run(main)
