"""loopexit_after_the_last_job: a job is out and nobody can be woken: LoopExit comes after the job"""
from gcase import *


import time
n = ThreadPool(1); e = Event()
def job():
    time.sleep(5 * MS); return 4
def main():
    j = n.spawn(job)
    try:
        e.wait()
    except LoopExit:
        P(j.value)


run(main)
