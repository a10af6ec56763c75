"""Runs the text of a record by the model, as `gvr run` does: for tests, and where no program is built."""
from typing import Callable, List

from ..model import Options as ModelOptions, Refused as ModelRefused, read, run as run_model
from .decider import Options
from .errors import Refused


def by_model(options: Options = Options()) -> Callable[[str], List[str]]:
    """Runs a text; raises Refused."""
    def run(text: str) -> List[str]:
        try:
            scenario = read(text.encode())
        except ModelRefused as e:
            raise Refused(e.line, str(e).split(': ', 1)[1]) from None
        return [line.text for line in run_model(scenario, ModelOptions(options.turns, options.moves, options.tick))]
    return run
