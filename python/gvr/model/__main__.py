"""python3 -m gvr.model run|fmt|verify|storm ..: what the program of that name would answer, by the model."""
import sys

from .command import call


def main() -> int:
    """Answers, and gives the status."""
    try:
        with open(0, "rb", buffering=0, closefd=False) as given, open(1, "wb", closefd=False) as out:
            status, complaint = call(sys.argv[1:], given, out)
    except OSError:
        status, complaint = 5, "write fault"
    if complaint:
        try:
            sys.stderr.write(f"gvr: {complaint}\n")
            sys.stderr.flush()
        except OSError:
            status = 5
    return status


if __name__ == "__main__":
    sys.exit(main())
