"""What can go wrong, as exceptions."""
from __future__ import annotations

import re


class FleetError(Exception):
    """Whatever this package refuses. `text` is what the library says, without its LF."""

    def __init__(self, text: str):
        super().__init__(text)
        self.text = text


class ScriptFault(FleetError):
    """The lines are no script. A session is as it was: the line can be given again, or another one.

    `number` is that of the fault (8 of F8), `name` its name, `line` the number of the line that has it, from 1, or None of
    a fault of the whole text. docs/FORMATS.md says what each means and how a line is mended.
    """

    def __init__(self, text: str):
        super().__init__(text)
        said = re.fullmatch(r"script fault: (?:line (\d+): )?F(\d+) (\w+)", text)
        if not said:
            raise ValueError(f"no fault of a script: {text!r}")
        self.line = int(said[1]) if said[1] else None
        self.number = int(said[2])
        self.name = said[3]


class NoMemory(FleetError, MemoryError):
    """Memory was refused. A session is as it was."""

    def __init__(self, text: str = ""):
        super().__init__(text or "run error: E1 NoMemory")


class FleetClosed(FleetError, ValueError):
    """The fleet is closed, and can not be used again."""

    def __init__(self) -> None:
        super().__init__("the fleet is closed")


class LibraryNotFound(FleetError, OSError):
    """There is no shared library where one was looked for, or it can not be loaded."""
