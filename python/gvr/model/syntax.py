"""The words of the language, and how each line is written: LANGUAGE, "Declarations", "Expressions", "Statements".

SHAPES tells of each statement what follows its word; reader, printer and checker go by it:

    value, values       an expression; expressions to the end of the line
    local               a local name, which gets the value
    object              the name of an object, of the sorts in OBJECTS
    def, def1, rawdef   a function's name: with as many parameters as values follow; with one; of a raw greenlet
    ms, ms|none         a time
    timed, wait         nothing or `within MS`; that or `now`
    mark|set            `mark N` or `set NAME`
    job                 the word of a job
    ?WORD               nothing or the word; ?with and ?under are followed by an expression, ?count and ?takes by a number
"""
from typing import Dict, FrozenSet, Tuple

SHAPES: Dict[str, str] = {
    "print": "value", "let": "local value", "return": "value", "raise": "value",
    "if": "value", "while": "value", "try": "", "timeout": "ms|none ?silent",
    "spawn": "def values", "spawnlater": "ms def values", "new": "def values", "start": "value",
    "link": "value def1", "linkvalue": "value def1", "linkfault": "value def1", "rawlink": "value mark|set",
    "unlink": "value",
    "sleep": "ms", "join": "value timed", "get": "value wait", "kill": "value ?with wait",
    "joinall": "value ?count timed", "killall": "value ?with wait",
    "set": "object", "clear": "object", "wait": "object timed",
    "rset": "object value", "rfail": "object value", "rget": "object wait", "rwait": "object timed",
    "acquire": "object wait", "release": "object",
    "qput": "object value wait", "qget": "object wait", "qpeek": "object wait", "qdone": "object",
    "qjoin": "object timed", "qshut": "object ?immediate", "cput": "object value", "cget": "object",
    "gspawn": "object def values", "gjoin": "object timed", "gkill": "object ?with ?now", "map": "object def1 value",
    "nspawn": "object job value ?takes",
    "raw": "rawdef ?under", "switch": "value value", "throw": "value ?with", "setparent": "value value",
}
# Statements that give a value, which `NAME <-` takes.
GIVES: FrozenSet[str] = frozenset(
    "spawn spawnlater new get joinall link linkvalue linkfault rawlink wait rget rwait acquire qget qpeek qjoin cget"
    " gspawn map nspawn raw switch throw".split())
BLOCKS = ("if", "while", "try", "timeout")
PROFILE_2 = ("channel", "cput", "cget", "qshut")
# Statements that may stand in a rawdef.
IN_RAW = ("print", "let", "return", "raise", "if", "while", "try", "raw", "switch", "throw", "setparent")
JOBS = ("sum", "collatz", "fail", "echo")

DECLARATIONS = ("event", "result", "sem", "bsem", "rlock", "queue", "group", "pool", "native", "channel")
# The number of a declaration: its least and its greatest.
NUMBERED: Dict[str, Tuple[int, int]] = {
    "sem": (0, 1000000), "bsem": (0, 1000000), "pool": (1, 10000), "native": (1, 64), "queue": (1, 1000000)}
ORDERS = ("fifo", "lifo", "prio", "join")

_UNITS, _CREW = ("sem", "bsem"), ("group", "pool")
_QUEUES = ("queue fifo", "queue lifo", "queue prio", "queue join")
# The sorts of objects that a statement takes.
OBJECTS: Dict[str, Tuple[str, ...]] = {
    "set": ("event",), "clear": ("event",), "wait": ("event",), "rawlink": ("event",),
    "rset": ("result",), "rfail": ("result",), "rget": ("result",), "rwait": ("result",),
    "acquire": _UNITS + ("rlock",), "release": _UNITS + ("rlock",),
    "qput": _QUEUES, "qget": _QUEUES, "qpeek": _QUEUES, "qshut": _QUEUES,
    "qdone": ("queue join",), "qjoin": ("queue join",), "cput": ("channel",), "cget": ("channel",),
    "gspawn": _CREW, "gjoin": _CREW, "gkill": _CREW, "map": _CREW, "nspawn": ("native",)}
# Expressions that ask after an object, and its sorts.
QUERIES: Dict[str, Tuple[str, ...]] = {
    "isset": ("event", "result"), "counter": _UNITS, "qsize": _QUEUES, "unfinished": ("queue join",), "members": _CREW}
BINARY = ("+", "-", "*", "/", "%", "==", "!=", "<", "<=", "and", "or", "push", "at")
UNARY = ("not", "len", "ready", "successful", "value", "exception")

MOST_TEXT, MOST_LONG_TEXT = 1048576, 16777216    # bytes: of profiles 1 and 2, and of 3
MOST_MS, MOST_MARK, MOST_ELEMENTS = 1000000000, 1000000, 64
MOST_LEVELS = MOST_NESTED = 32
MOST_OBJECTS = MOST_FUNCTIONS = 256              # of profiles 1 and 2
MOST_DECLARED = 20000                            # objects, and functions, of profile 3
MOST_PARAMETERS, MOST_LOCAL_NAMES, MOST_TIMEOUTS = 16, 64, 8

# Words that are no names.
WORDS: FrozenSet[str] = frozenset("""
acquire and any at bsem cget channel clear collatz count counter cput def echo else end event except exception fail
false fifo finally get gjoin gkill group gspawn if immediate isset join joinall kill killall len let lifo link
linkfault linkvalue list map mark members native new none not now nspawn or pool print prio profile push qdone qget
qjoin qpeek qput qshut qsize queue raise raw rawdef rawlink ready release result return rfail rget rlock rset rwait
self sem set setparent silent sleep spawn spawnlater start successful sum switch takes throw timeout true try under
unfinished unlink value wait while with within
""".split())

# Why a text is refused.
REASONS: Dict[int, str] = {
    1: "text longer than 1048576 bytes", 2: "byte that is not printable ASCII", 3: "last line not ended",
    4: "blank out of place", 5: "unknown word", 6: "line too short", 7: "line too long",
    8: "number not in its one spelling", 9: "number out of range", 10: "name not allowed",
    11: "block word out of place", 12: "block not closed", 13: "line out of place", 14: "no main",
    15: "undeclared name", 16: "name declared twice", 17: "wrong kind of name",
    18: "wrong count of parameters or arguments", 19: "hub statement in a raw body",
    20: "timeout blocks nested past 8", 21: "nesting past 32", 22: "too many declarations",
    24: "no line of four equals signs", 25: "input longer than 67108864 bytes", 26: "text longer than 16777216 bytes"}
