"""native_results_at_one_moment: four jobs due at one moment: by number, one a turn"""
from gcase import *


import time
n = ThreadPool(4)
def job(takes, v):
    time.sleep(takes * MS); return v
def w(k):
    P(n.spawn(job, 10, k).get())
def main():
    for i in range(1, 5):
        S(w, i)
    Z(30)


run(main)
