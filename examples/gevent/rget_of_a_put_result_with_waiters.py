"""rget_of_a_put_result_with_waiters: rget of a put result whose waiters have not run yet"""
from gcase import *


r = AsyncResult()
def w():
    P(r.get())
def main():
    a = S(w); sleep(0); r.set(1); r.get(); P(9); a.join()


run(main)
