"""job_last: a job is done at the deadline of its get"""
import time

from gcase import *

n = ThreadPool(1)


def main():
    j = n.spawn(lambda: time.sleep(5 * MS) or 1)
    x = j.get(timeout=W(5))
    P(x)


run(main)
