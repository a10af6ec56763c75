"""What people mean by a line that is refused: the row of EXPLAIN's first table that it belongs to."""
import re
from typing import List, NamedTuple, Optional, Tuple

from .explain import Row, what_newcomers_write

GIVES = (r"(?:spawn|spawnlater|new|get|joinall|link\w*|rawlink|wait|rget|rwait|acquire|qget|qpeek|qjoin|gspawn|map|nspawn"
         r"|raw|switch|throw|cget)")
INFIX = r"(?:[-+*/%<>]|<=|>=|==|!=|and|or|in|is)"
OBJECT_METHODS = r"(?:set|clear|wait|get|put|acquire|release|join|kill|spawn|append|result|value|ready|link)"


class Sign(NamedTuple):
    """A sign by which a line is known: its reason, what its text (without leading blanks) looks like, and the text with
    which its row in EXPLAIN begins."""
    reason: int
    pattern: str
    row: str


# The first that fits is told.
SIGNS: Tuple[Sign, ...] = tuple(Sign(*it) for it in (
    (5, r"(?:import|from) ", "import gevent\ndef main\nend"),
    (5, r"(?:for)\b", "for i in a\nend"),
    (5, r"elif\b", "if true\nelif false\nend"),
    (5, r"(?:break|continue)\b", "while true\nbreak\nend"),
    (5, r"pass$", "pass"),
    (5, r"(?:with)\b", "with s"),
    (5, r"lock ", "lock l\ndef main\nend"),
    (5, r"(?:semaphore|mutex|future|greenlet|condition|barrier) ", "semaphore t 1\ndef main\nend"),
    (5, r"\w+, ?\w+ (?:=|<-) ", "c, d <- spawn w"),
    (5, r"\w+ [-+*/%]= ", "i += 1"),
    (5, r"\w+ (?:=|<-) ", "x = 1"),
    (5, rf"let \w+ {GIVES}\b", "let x spawn w"),
    (5, r"raise (?:Timeout|LoopExit|ShutDown|InvalidSwitch)\b", "raise Timeout 1"),
    (5, r".*\b(?:True|False|None)\b(?!.*:$)", "print True"),
    (5, r".*[\"']", "print \"hello\""),
    (5, r".*:$", "while true:\nend"),
    (5, rf"\w+\.{OBJECT_METHODS}\w*\(", "e.set()"),
    (5, r"[\w.]+\(", "sleep(5)"),
    (5, r".*\[", "print [1, 2]"),
    (5, r".*\(", "print (+ 1 2)"),
    (5, r"[a-z]\w*$", "w"),
    (6, r"(?:sem|bsem) \w+$", "sem t\ndef main\nend"),
    (6, r"queue \w+(?: \w+)?$", "queue q fifo\ndef main\nend"),
    (6, r"(?:pool|native) \w+$", "pool p\ndef main\nend"),
    (6, r"(?:return|except)$", "return"),
    (6, r".* - \w+$", "let x - n"),
    (7, r".* #", "print 1 # hi"),
    (7, r"else\b", "if true\nelse if false\nend"),
    (7, r"except \w+ as ", "try\njoin a\nexcept Error as f\nend"),
    (7, r".* timeout[ =]", "acquire s timeout 5"),
    (7, r"raise \w+ ", "raise ValueError 3"),
    (7, rf"(?:if|while) .* {INFIX} ", "while i < 3\nend"),
    (7, rf".* {INFIX} ", "return n + 1"),
    (7, r"join ", "join a b"),
    (7, r"print ", "print 1 2"),
    (8, r"(?:sleep|spawnlater|timeout|.* within) ", "sleep n"),
    (8, r".* -[a-z]", "print -n"),
    (8, r".*\d\.\d", "print 1.5"),
    (10, r"(?:def|rawdef) .*:$", "def main:\nend"),
    (10, r"(?:def|rawdef) \w+\(", "def main()\nend"),
    (10, r"\w+ .*\w\(", "spawn w(1)"),
    (10, r".*[A-Z]", "let firstName 1"),
    (13, r"(?:event|result|sem|bsem|rlock|queue|group|pool|native|channel) ", "event f"),
    (13, r"", "print 1\ndef main\nend"),
))
# These need the word that is refused: a word of the language as a name, an object or a parameter in a wrong place.
RESERVED_ROW, OBJECT_ROW = "let list 1", "let x e"
PARAMETER_ROW = "event e\ndef sets x\nset x\nend\ndef main\nspawn sets e\nend"
# Rows that many lines belong to: a word that is one letter off is told before them.
ONE_WORD, VALUES = ("w",), ("x = 1",)
NAME_TWICE_ROW = "def w target\nend\ndef target\nend\ndef main\nend"


def advice(reason: int, line: str, word: str, is_object: bool, is_parameter: bool) -> Optional[Row]:
    """The row for a line that is refused for this reason at this word, if there is one."""
    text = line.lstrip(" ")
    sought: List[str] = [it.row for it in SIGNS if it.reason == reason and re.match(it.pattern, text)][:1]
    if reason == 10 and not sought and re.fullmatch("[a-z]+", word):
        sought = [RESERVED_ROW]
    if reason == 17:
        sought = [OBJECT_ROW if is_object else NAME_TWICE_ROW]
    if reason == 15 and is_parameter:
        sought = [PARAMETER_ROW]
    return next((it for it in what_newcomers_write() if it.wrote[0] in sought), None)
