"""native_results_in_order_of_ending: results come in order of ending; the third job waits for a slot"""
from gcase import *


import time
n = ThreadPool(2)
def job(takes, v):
    time.sleep(takes * MS); return v
def w(k, t):
    P(n.spawn(job, t, k).get())
def main():
    a = S(w, 1, 20); b = S(w, 2, 10); c = S(w, 3, 5); a.join(); b.join(); c.join()


run(main)
