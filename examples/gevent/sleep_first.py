"""sleep_first: a sleep inside a Timeout of the same length"""
from gcase import *


def main():
    with T(5):
        Z(5)
    P(1)


run(main)
