"""What is told of a file that can't be read: one line as the compiler has it, and why."""

import sys

FAULT = 5  # the status
LINE = "fault read file"


def why(name):
    """Why a file can't be read, in words, or None where it can."""
    try:
        with open(name, "rb") as file:
            file.read(1)
    except (OSError, ValueError) as error:
        return reason(name, error)
    return None


def reason(name, error):
    """The same of an error that was met."""
    return f"{name}: can't be read: {getattr(error, 'strerror', None) or error}"


def tell(error, name=""):
    """Tells of a file that could not be read, and gives the status of the call."""
    file = getattr(error, "filename", None) or name or "a file"
    print(f"{LINE}\n{reason(file, error)}", file=sys.stderr)
    return FAULT
