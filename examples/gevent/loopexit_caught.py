"""loopexit_caught: main catches LoopExit and goes on"""
from gcase import *


e = Event()
def main():
    try:
        e.wait()
    except LoopExit:
        P(1)
    e.set(); P(e.wait())


run(main)
