"""What ends tools/run: the lines that are said then, and the exit statuses that are not the guest's own."""
from __future__ import annotations

from typing import List

FAILED = 125
NOT_STARTED = 126
NOT_FOUND = 127
# And the number of the signal.
SIGNALLED = 128
DEADLOCK = 200
BUDGET = 201
UNSUPPORTED = 202
DIFFERENT = 203


class RunError(Exception):
    """Ends the tool with status 125 and these lines on standard error, each behind the tool's name."""

    def __init__(self, *lines: str) -> None:
        super().__init__(*lines)
        self.lines: List[str] = list(lines)
