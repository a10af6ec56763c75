"""a_hog_and_three_timers: a hog computes past three deadlines (computing takes no time in the model)"""
from gcase import *


import time
def w(n):
    Z(n); P(n)
def hog():
    time.sleep(20 * MS)   # computes past all the deadlines
def main():
    S(w, 3); S(w, 1); S(w, 2); S(hog); Z(10)


run(main)
