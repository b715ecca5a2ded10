"""Standard input and output of the tools that end as `rsvpd show` does: where one of them fails, the two lines of `rsvpd` say so."""
import os
import sys


def fault(kind, stream, error):
    print(f"{kind} fault\n  standard {stream}: {error.strerror}", file=sys.stderr)
    return 3 if kind == "read" else 4


def read(most):
    """The bytes of standard input, `most` of them at most; the status 3 ends the tool where they cannot be read."""
    try:
        with open(0, "rb", closefd=False) as stream:
            return stream.read(most)
    except OSError as error:
        sys.exit(fault("read", "input", error))


def write(data):
    """Writes these bytes to standard output. Gives the status: 4 where they cannot be written."""
    try:
        with open(1, "wb", closefd=False) as stream:
            stream.write(data)
    except OSError as error:
        if sys.stdout is not None:
            os.dup2(os.open(os.devnull, os.O_WRONLY), 1)
        return fault("write", "output", error)
    return 0
