"""eight_sleeps_one_deadline: the order of eight sleeps with one deadline"""
from gcase import *


def w(n):
    Z(10); P(n)
def main():
    for i in range(1, 9):
        S(w, i)
    Z(20)


run(main)
