"""gevent's exceptions."""
from ..live.errors import (GreenletExit as GreenletExit, InvalidSwitchError as InvalidSwitchError,
                           LoopExit as LoopExit)


class BlockingSwitchOutError(AssertionError):
    pass


class ConcurrentObjectUseError(AssertionError):
    pass


class InvalidThreadUseError(RuntimeError):
    pass


class HubDestroyed(GreenletExit):                # type: ignore[misc]
    pass
