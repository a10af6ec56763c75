"""The versions: of gvr as a whole, and of what others read by a program."""

# The newest heading of CHANGELOG.md.
VERSION = "0.4"
# The lines of a trace, docs/TRACE.md.
TRACE_FORMAT = 1
# The lines that `gvr json` writes, docs/TRACE.md.
JSON_FORMAT = 1
# The profiles of the language, docs/LANGUAGE.md.
PROFILES = (1, 2, 3)


def version_text() -> str:
    """What `gvr --version` says."""
    profiles = ", ".join(str(it) for it in PROFILES[:-1]) + f" and {PROFILES[-1]}"
    return f"gvr {VERSION}\ntrace format {TRACE_FORMAT}, JSON lines {JSON_FORMAT}, language profiles {profiles}\n"
