"""kill_of_main: another kills main"""
from gcase import *


def w(m):
    gevent.kill(m)
def main():
    S(w, MAIN); Z(10); P(1)


run(main)
