"""What the server says of itself."""
import sys


def tell(text: str) -> None:
    """A line on standard error."""
    print("gvr app: %s" % text, file=sys.stderr, flush=True)
