"""set_then_clear_then_newcomer: set_then_clear without earlier waiters"""
from gcase import *


e = Event()
def main():
    e.set(); e.clear(); P(e.wait(timeout=W(5)))


run(main)
