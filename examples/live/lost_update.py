# Two greenlets add to one account, with a wait between reading and writing. What is lost, and how is it kept?
from contextlib import nullcontext

import gevent
from gevent.lock import Semaphore


class Account:
    def __init__(self, lock):
        self.lock, self.balance = lock, 0

    def pay_in(self, amount):
        with self.lock:
            balance = self.balance
            gevent.sleep(0.01)
            self.balance = balance + amount


def pay(account, amount, times):
    for _ in range(times):
        account.pay_in(amount)


for name, lock in (("free", nullcontext()), ("locked", Semaphore(1))):
    account = Account(lock)
    gevent.joinall([gevent.spawn(pay, account, 1, 3), gevent.spawn(pay, account, 10, 3)])
    print(name, account.balance)
