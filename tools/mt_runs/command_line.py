"""How a tool ends, whatever ends it early."""
from __future__ import annotations

import io
import os
import sys
from collections.abc import Callable
from typing import NoReturn

FAILED, INTERRUPTED = 2, 130


def end_with(name: str, main: Callable[[], int]) -> NoReturn:
    """Runs a tool and ends with the status that it gives.

    Text that the output can't show is escaped. If the output is closed or full, or Ctrl-C is pressed, the tool ends without a traceback: with 2, or with 130.
    """
    for stream in (sys.stdout, sys.stderr):
        if isinstance(stream, io.TextIOWrapper):
            stream.reconfigure(errors="backslashreplace")
    try:
        status = main()
        sys.stdout.flush()
    except KeyboardInterrupt:
        status = INTERRUPTED
    except OSError as error:
        status = FAILED
        if not isinstance(error, BrokenPipeError):
            print(f"{name}: {error}", file=sys.stderr)
        # nothing is written when the interpreter ends
        os.dup2(os.open(os.devnull, os.O_WRONLY), sys.stdout.fileno())
    sys.exit(status)
