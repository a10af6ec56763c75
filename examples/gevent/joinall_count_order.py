"""joinall_count_order: the list that joinall answers: argument order or order of ending"""
from gcase import *


def w(n):
    Z(n); return n
def main():
    a = S(w, 6); b = S(w, 3); c = S(w, 9)
    l = joinall([a, b, c], count=2); P(len(l)); P(l[0].value); P(l[1].value)
    l = joinall([a, b, c], timeout=W(1)); P(len(l)); joinall([a, b, c])


run(main)
