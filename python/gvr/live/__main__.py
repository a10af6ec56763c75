"""python -m gvr.live [options] PROGRAM [argument..]"""
import sys

try:
    import greenlet                              # noqa: F401
except ImportError:
    sys.exit('gvr live: the module greenlet is missing: apt-get install python3-greenlet, or pip install greenlet')

from .command import start

start()
