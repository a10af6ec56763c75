"""rwait_of_a_fault: rwait of a fault gives none"""
from gcase import *


r = AsyncResult()
def w():
    P(r.wait())
def main():
    a = S(w); sleep(0); r.set_exception(Err(1)); a.join()


run(main)
