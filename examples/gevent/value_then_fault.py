"""value_then_fault: a result put a second time as a fault"""
from gcase import *


r = AsyncResult()
def w():
    try:
        P(r.get())
    except Err as e:
        P(e)
def main():
    a = S(w); sleep(0); r.set(1); r.set_exception(Err(5)); a.join()


run(main)
