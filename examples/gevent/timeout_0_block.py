"""timeout_0_block: a timeout of 0 against a sleep 0 inside it"""
from gcase import *


def main():
    try:
        with T(0):
            P(1); sleep(0); P(2)
    except Timeout as t:
        P(t)


run(main)
