"""fault_then_value: a fault, then a value"""
from gcase import *


r = AsyncResult()
def w():
    try:
        P(r.get())
    except Err as e:
        P(e)
def main():
    a = S(w); sleep(0); r.set_exception(Err(5)); r.set(1); a.join(); P(r.ready())


run(main)
