"""kill_unstarted_with_link: kill of an unstarted greenlet, link is called once"""
from gcase import *


def w():
    P(1)
def after(g):
    P(g.value)
def main():
    a = S(w); a.link(after); a.kill(); P(a.ready()); sleep(0)


run(main)
