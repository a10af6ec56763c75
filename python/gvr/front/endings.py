"""What `gvr` tells behind the program's own line, by the status with which a call ended."""
from typing import List, Optional, Sequence

from . import network, usage, waiting
from .commands import BY_NAME, RUN_OPTIONS
from .program import WRITE_FAULT, Answer, ask
from .words import read_call

FAULT_OF_MAIN, NO_COMMAND, REFUSED, NOT_VERIFIED, NETWORK_FAULT = 1, 2, 3, 9, 10


def stuck(words: Sequence[str], text: bytes) -> str:
    """Who waited for what each time that a run was stuck: it is made again for that, but where threads decide."""
    call = read_call(BY_NAME["run"], words[1:])
    if call.has("--native") and call.value("--order") != "held":
        return ""
    return waiting.told_of(ask(words, text).out)


def scenario_part(words: Sequence[str], text: bytes) -> Optional[bytes]:
    """The scenario in what a command was given, or nothing where there is none."""
    if words[0] != "verify":
        return text
    if read_call(BY_NAME["verify"], words[1:]).value("--check") == "laws":
        return None
    scenario, found, _ = (b"\n" + text).partition(b"\n====\n")
    return (scenario + b"\n")[1:] if found else None


def refused(words: Sequence[str], text: bytes, complaint: Optional[str]) -> str:
    """The refusals of a text, drawn."""
    from . import refusal
    scenario = scenario_part(words, text)
    return refusal.shown(scenario, complaint) if scenario is not None else ""


def told(words: List[str], text: bytes, answer: Answer, is_stuck: bool = False) -> str:
    """What is told behind the answer to these words and this text, of a run that may have been stuck and gone on."""
    command = BY_NAME[words[0]]
    was_stuck = is_stuck and answer.status != WRITE_FAULT
    if (was_stuck or answer.status == FAULT_OF_MAIN) and command.options[:1] == RUN_OPTIONS[:1]:
        return stuck(words, text)
    if answer.status == NO_COMMAND:
        return usage.wrong_words(command, read_call(command, words[1:]))
    if answer.status == REFUSED:
        return refused(words, text, answer.complaint or None)
    if answer.status == NOT_VERIFIED:
        from . import replay
        return replay.verdict_told(words, text, answer.complaint)
    if answer.status == NETWORK_FAULT:
        return network.cause(read_call(command, words[1:]).value("--port") or "0")
    return ""
