"""spin_on_sleep_0_tick_1: spin_on_sleep_0 with --tick 1: each poll moves the clock"""
from gcase import *


e = Event()
def t():
    Z(5); e.set()
def main():
    S(t)
    while not e.is_set():
        sleep(0)
    P(1)


run(main)
