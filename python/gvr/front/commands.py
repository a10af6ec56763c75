"""The one table of the commands: `--help`, the manual page and the completions are made from it."""
from typing import Dict, List, NamedTuple, Optional, Tuple


class Option(NamedTuple):
    """An option of a command: its name, what stands behind it (nothing for a flag), a few words, and the whole."""
    name: str
    value: str
    short: str
    says: str


class Command(NamedTuple):
    """A command: its words in the synopsis, what it does in a few words and in whole sentences, its options."""
    name: str
    synopsis: Tuple[str, ...]
    short: str
    says: str
    options: Tuple[str, ...] = ()
    # Whether the built program has it; all others are of the front alone.
    is_of_program: bool = False
    takes_files: bool = True


OPTIONS: Dict[str, Option] = {it.name: it for it in (
    Option("--turns", "N", "at most so many turns", "At most so many turns: 1 to 10000000; 1000000 if it is left out."),
    Option("--moves", "N", "at most so many moves", "At most so many moves: 1 to 100000000; 10000000 if it is left out."),
    Option("--tick", "N", "milliseconds at each look at the world",
           "How far the clock moves at each look at the world, in milliseconds: 0 to 1000; 0 if it is left out."),
    Option("--native", "N", "threads that do the jobs", "So many threads do the jobs: 1 to 16. Not beside --tick."),
    Option("--order", "free|held", "the order in which results are told",
           "Whether the results of the threads are told as they come, or in the order in which a run without threads "
           "tells them."),
    Option("--check", "run|laws", "what is checked",
           "What of a trace is checked: that it is the run of the scenario before it, as if it is left out, or that it "
           "meets the laws, which takes neither turns nor moves."),
    Option("--size", "N", "how many greenlets", "The greenlets of the storm: 1 to 19000."),
    Option("--port", "N", "where to listen", "Where to listen: 0 to 65535; 0 takes a free port."),
    Option("--conns", "N", "how many connections", "How many connections are answered before it ends: 1 to 1000000."),
    Option("--pool", "N", "how many connections at a time",
           "At most so many connections at a time: 1 to 1024; 100 if it is left out."),
    Option("--idle", "N", "milliseconds without a byte",
           "The milliseconds without a byte after which a connection is closed: 1 to 3600000; 60000 if it is left out."),
    Option("--jobs", "N", "threads that do the jobs of requests",
           "Threads that do the jobs for which requests ask: 1 to 16; no threads and no jobs if it is left out. Not "
           "beside --gateway scgi."),
    Option("--pass", "N", "the port of an application server",
           "The port of 127.0.0.1 at which an SCGI server, as `gvr app`, answers the requests: 1 to 65535. Not beside "
           "--jobs or --gateway scgi."),
    Option("--patience", "N", "milliseconds for a reply",
           "The milliseconds within which a reply to what was passed has to be whole: 1 to 3600000; 60000 if it is left "
           "out. Only with --pass."),
    Option("--gateway", "http|scgi", "what a connection speaks", "What a connection speaks; http if it is left out."),
    Option("--sources", "", "compile the sources, some minutes",
           "The sources answer as they stand, after some minutes of compiling, also if a program is built or the model "
           "could answer."),
)}
# The front's own `--check` of fmt is a flag, unlike that of verify.
FMT_CHECK = Option("--check", "", "say whether the file is formatted",
                   "Nothing is written; the status is 1 if a text is not as fmt would write it, and a line says where.")

RUN_OPTIONS = ("--turns", "--moves", "--tick", "--native", "--order")
RUN_SYNOPSIS = "[--turns N] [--moves N] [--tick N] [--native N [--order free|held]]"

COMMANDS: Tuple[Command, ...] = (
    Command("run", (f"{RUN_SYNOPSIS} [FILE]",), "run a scenario and write its trace",
            "Reads a scenario, FILE or the standard input, and writes the trace of its run: one line for each start, "
            "wait, wake and end. If the scenario's first line is `# run OPTIONS`, it is run with these, unless the call "
            "has options of its own.",
            (*RUN_OPTIONS, "--sources"), True),
    Command("fmt", ("[FILE]", "--check FILE.."), "write a scenario as it is to be indented",
            "Writes the printed form of a scenario, with its comments; with `--check` says whether files are written so.", ("--check",), True),
    Command("verify", ("[--turns N] [--moves N] [FILE TRACE]", "--check laws [TRACE]"), "check a trace",
            "Says whether TRACE is the run of the scenario FILE, under the answers that its turn lines have; with "
            "`--check laws` whether it meets the laws. Without files it reads the standard input: the scenario, a line of "
            "four equals signs, and the trace; or the trace alone.",
            ("--check", "--turns", "--moves"), True),
    Command("try", ("FOLDER|FILE..",), "show the traces of many scenarios",
            "Runs each scenario, or each one in a folder, and shows each trace under a line `== NAME`.", ("--sources",)),
    Command("watch", (f"{RUN_SYNOPSIS} FILE",), "run a scenario at each save",
            "Runs FILE now and whenever it is saved, until it is interrupted.", RUN_OPTIONS),
    Command("explain", ("[REASON | status N | cause N | law N]",), "tell what a number means",
            "Tells what a reason of a refusal, a status, a cause or a law means, and what to write instead."),
    Command("diff", ("A B",), "compare two traces",
            "Compares two traces by greenlet and turn. A file NAME.gvr is run first. The status is 1 if they differ.",),
    Command("stats", (f"{RUN_SYNOPSIS} FILE",), "tell how long each greenlet waited",
            "Tells for each greenlet how often it ran, how often and how long it waited, and for what the longest. FILE "
            "is a scenario, which is run, or a trace.", RUN_OPTIONS),
    Command("json", (f"{RUN_SYNOPSIS} [FILE]",), "write a trace as JSON lines",
            "Writes the trace of a scenario as one JSON object a line; docs/TRACE.md has the format.", RUN_OPTIONS),
    Command("storm", ("--size N",), "run a scenario of its own, of any size",
            "Runs a scenario of its own in which N greenlets hand one unit of a semaphore on, and writes the numbers of "
            "that run.", ("--size",), True, False),
    Command("wsgi", ("[--gateway http|scgi]",), "answer the connection of the standard input",
            "Answers the requests of one connection, which it reads from the standard input.", ("--gateway",), True, False),
    Command("serve", ("--port N --conns N [--pool N] [--idle N] [--jobs N] [--pass N [--patience N]] [--gateway http|scgi]",),
            "answer connections over 127.0.0.1",
            "Listens on 127.0.0.1, writes `listening PORT`, answers so many connections, and writes `served N`.",
            ("--port", "--conns", "--pool", "--idle", "--jobs", "--pass", "--patience", "--gateway"), True, False),
    Command("live", ("[OPTIONS] PROGRAM.py [ARGUMENT..]",), "run a Python program written for gevent",
            "Runs a Python program with gvr deciding every order; docs/LIVE.md tells more, and `live --help`."),
    Command("beside", ("[OPTIONS] FILE", "check FILE..", "hunt --from A --to B"), "run a scenario beside another runtime",
            "Runs a scenario by gvr and by another runtime, gevent first, and tells the first difference; docs/BESIDE.md "
            "tells more, and `beside --help`."),
    Command("app", ("[OPTIONS] MODULE:CALLABLE",), "serve a WSGI application over SCGI",
            "Serves a WSGI application of yours over SCGI, for `serve --pass`; docs/BEHIND.md tells more, and `app --help`."),
)
BY_NAME: Dict[str, Command] = {it.name: it for it in COMMANDS}
# The groups of `gvr --help`.
GROUPS: Tuple[Tuple[str, Tuple[str, ...]], ...] = (
    ("Scenarios", ("run", "fmt", "try", "watch", "explain")),
    ("Traces", ("verify", "diff", "stats", "json")),
    ("Python programs", ("live", "beside", "app")),
    ("Server, and a measure", ("serve", "wsgi", "storm")),
)


def option_of(command: Command, name: str) -> Optional[Option]:
    """The option of a command that is called so."""
    if name not in command.options:
        return None
    return FMT_CHECK if command.name == "fmt" and name == "--check" else OPTIONS[name]


def options_of(command: Command) -> List[Option]:
    """The options of a command, in order."""
    return [it for it in (option_of(command, name) for name in command.options) if it]
