"""one_job_more: a pool of one thread and two jobs"""
import time

from gcase import *

n = ThreadPool(1)


def w():
    P(1)


def main():
    S(w)
    n.spawn(lambda: time.sleep(5 * MS) or 1)
    n.spawn(lambda: time.sleep(5 * MS) or 2)
    P(2)


run(main)
