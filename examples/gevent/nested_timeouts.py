"""nested_timeouts: an outer timeout passes a silent inner one"""
from gcase import *


def main():
    try:
        with T(5):
            with T(20, silent=True):
                Z(100)
            P(1)
    except Timeout as t:
        P(t)


run(main)
