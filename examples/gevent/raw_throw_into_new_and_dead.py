"""raw_throw_into_new_and_dead: throw into a new and a dead raw greenlet"""
from gcase import *


def f(v):
    P(v); return 7
def main():
    a = greenlet.greenlet(f); number(a)
    P(a.throw()); P(a.switch(3))
    try:
        a.throw(Err(4))
    except Err as e:
        P(e)


run(main)
