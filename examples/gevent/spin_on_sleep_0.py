"""spin_on_sleep_0: sleep 0 in a loop while another sleeps: at tick 0 time stands still"""
from gcase import *


e = Event()
def t():
    Z(5); e.set()
def main():
    S(t)
    while not e.is_set():
        sleep(0)
    P(1)


run(main)
