"""killed_waiters_job: the job of a killed waiter keeps its slot to its end"""
from gcase import *


import time
n = ThreadPool(2)
def job(takes, v):
    time.sleep(takes * MS)
    if isinstance(v, Exception):
        raise v
    return v
def slow():
    P(n.spawn(job, 30, 15).get())
def quick():
    P(n.spawn(job, 10, Err(3)).get())
def main():
    a = S(slow); b = S(quick); Z(5); b.kill(); P(n.spawn(job, 0, 9).get()); a.join()


run(main)
