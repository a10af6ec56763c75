"""equal_nested_timeouts: two timeout blocks with one deadline"""
from gcase import *


def main():
    try:
        with T(5):
            try:
                with T(5):
                    Z(100)
            except Timeout as t:
                P(t)
            P(1); Z(20)
    except Timeout as t:
        P(t)


run(main)
