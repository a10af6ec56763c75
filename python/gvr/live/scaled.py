"""A loop for real gevent whose timers take GVR_SCALE times as long: with it what a program computes takes little of the
time between two of its moments. GEVENT_LOOP=gvr.live.scaled.Loop chooses it."""
import os
from typing import Any

from gevent.libev.corecext import loop

SCALE = float(os.environ.get('GVR_SCALE', '1'))


class Loop(loop):                                # type: ignore[misc]
    """gevent's own loop, with longer timers."""

    def timer(self, after: float, repeat: float = 0.0, *args: Any, **kwargs: Any) -> Any:
        return loop.timer(self, after * SCALE, repeat * SCALE, *args, **kwargs)
