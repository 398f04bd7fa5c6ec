"""What every tool does alike: files read and written whole, and a fault told in one line that names the file."""

import os
import sys
from pathlib import Path

TOP = Path(__file__).resolve().parent.parent


class Fault(Exception):
    """Why a tool can't go on: one line, with the file's name."""


def run(main):
    """Leaves with what `main` returns; at a fault with status 1 and one line on standard error."""
    try:
        status = main(sys.argv[1:])
        sys.stdout.flush()
        sys.exit(status)
    except Fault as fault:
        sys.exit(f"{short(sys.argv[0])}: {fault}")
    except OSError as fault:
        sys.exit(f"{short(sys.argv[0])}: {short(fault.filename or 'standard output')}: {fault.strerror}")
    except KeyboardInterrupt:
        sys.exit(130)


def short(path):
    """From the top, if it is under it."""
    whole = Path(path).resolve()
    return str(whole.relative_to(TOP)) if whole.is_relative_to(TOP) else str(path)


def read_whole(path):
    data = Path(path).read_bytes()
    if not data:
        raise Fault(f"{path} is empty")
    return data


def write_whole(path, data):
    """First beside it, so that what has the file's name is never half of it."""
    part = Path(f"{path}.part")
    try:
        part.write_bytes(data)
        os.replace(part, path)
    except OSError as fault:
        part.unlink(missing_ok=True)
        raise Fault(f"{path}: {fault.strerror}") from None
