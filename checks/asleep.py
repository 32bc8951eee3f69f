"""Whether a process can't go on by itself, which is seen without a limit of time: a busy machine makes any process slow."""
from __future__ import annotations

import pathlib
import re
from typing import Optional

LOOKS = 0.5  # seconds between two looks at a process that is waited for


def _switches(pid: int) -> Optional[dict[str, list[str]]]:
    """Of each thread of a process how often it has lost its processor; nothing if one doesn't sleep, or has a child at work."""
    counts = {}
    try:
        for thread in pathlib.Path(f"/proc/{pid}/task").iterdir():
            status = (thread / "status").read_text()
            if "\nState:\tS" not in status or (thread / "children").read_text():
                return None
            counts[thread.name] = re.findall(r"ctxt_switches:\s*(\d+)", status)
    except OSError:
        return None  # one ends just now
    return counts


def is_stuck(pid: int) -> bool:
    """Whether all threads of a process slept at one moment, without a child: each did at two looks, and none ran between them."""
    first = _switches(pid)
    return first is not None and first == _switches(pid)
