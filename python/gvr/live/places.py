"""Lines of the program: where a statement was made, and tracebacks without the package's own frames."""
import os
import sys
import traceback
from types import CodeType, FrameType
from typing import Dict, List, Optional

from .record import Place

PACKAGE = os.path.dirname(os.path.dirname(os.path.abspath(__file__))) + os.sep
APART = (os.path.join(PACKAGE, 'live', ''), os.path.join(PACKAGE, 'gevent', ''), os.path.join(PACKAGE, 'testing.py'),
         os.path.join(PACKAGE, 'model', ''))
_ours: Dict[CodeType, bool] = {}


def is_ours(code: CodeType) -> bool:
    """The package's own code, which no user wants to see."""
    found = _ours.get(code)
    if found is None:
        found = _ours[code] = code.co_filename.startswith(APART) or code.co_filename.startswith('<frozen ')
    return found


def program_frame() -> Optional[FrameType]:
    """The innermost frame that is the program's."""
    frame: Optional[FrameType] = sys._getframe(1)
    while frame is not None:
        ours = _ours.get(frame.f_code)
        if not (is_ours(frame.f_code) if ours is None else ours):
            return frame
        frame = frame.f_back
    return None


def program_place() -> Place:
    frame = program_frame()
    return None if frame is None else (frame.f_code, frame.f_lineno)


def told(place: Place) -> str:
    """`at crawl.py:12 in worker`, or nothing."""
    if place is None:
        return ''
    code, line = place
    return 'at %s:%d in %s' % (os.path.basename(code.co_filename), line, code.co_name)


def traceback_lines(exception: BaseException) -> List[str]:
    """The traceback as Python prints it, without the package's own frames."""
    told_of = traceback.TracebackException.from_exception(exception)
    seen = set()
    todo: List[Optional[traceback.TracebackException]] = [told_of]
    while todo:
        each = todo.pop()
        if each is None or id(each) in seen:
            continue
        seen.add(id(each))
        kept = [f for f in each.stack if not f.filename.startswith(APART)]
        each.stack = traceback.StackSummary.from_list(kept)
        todo += [each.__cause__, each.__context__]
    return list(told_of.format())


def print_traceback(exception: BaseException) -> None:
    sys.stderr.write(''.join(traceback_lines(exception)))
