"""raw_greenlets: a fault goes up through raw parents, a dead one passes input on"""
from gcase import *


def inner(v):
    P(v); raise Err(5)
def outer(v):
    b = greenlet.greenlet(inner); number(b)
    return b.switch(v + 1)
def main():
    a = greenlet.greenlet(outer); number(a)
    try:
        a.switch(1)
    except Err as e:
        P(e)
    P(a.switch(9))


run(main)
