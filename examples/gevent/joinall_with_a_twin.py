"""joinall_with_a_twin: one greenlet named twice in joinall count 2"""
from gcase import *


def w(n):
    Z(n); return n
def main():
    a = S(w, 3); b = S(w, 9); l = joinall([a, a, b], count=2); P(len(l)); P(l[1].value); joinall([a, b])


run(main)
