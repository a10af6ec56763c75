"""python3 -m gvr.beside: the command."""
import sys

from .command import main

sys.exit(main())
