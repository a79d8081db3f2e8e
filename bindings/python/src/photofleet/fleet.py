"""A fleet to which one gives a line at a time, and the run of a whole script."""
from __future__ import annotations

import ctypes
import os
import threading
from typing import Iterable, Union

from .commands import Command
from .faults import FleetClosed
from .library import Library, Room, Session, Text, bytes_of, load
from .reports import Report, read_report

Path = Union[str, "os.PathLike[str]"]
Line = Union[str, bytes, Command]


def _line(line: Line) -> bytes:
    text = bytes_of(line if isinstance(line, (str, bytes)) else str(line))
    if b"\n" in text:
        raise ValueError(f"a line has no LF: {line!r}")
    return text


class Fleet:
    """Devices that are driven line by line, by the proved engine.

        with photofleet.Fleet("device a all") as fleet:
            fleet.give("new a 1 5 2024-05-01 -").version     # Version(device='a', epoch=0, number=1)
            fleet.ask("list a").store                         # (Held(place='store', picture=1, ...),)

    It is opened with lines that are a script by themselves, mostly declarations. A line that is refused raises, and the fleet
    is as it was. Calls from several threads wait for one another; fleets of their own run at once.
    """

    def __init__(self, lines: Text | Iterable[str] = "", *, library: Library | Path | None = None):
        self._session = Session()
        self._lock = threading.Lock()
        self._room = Room()
        self._library = library if isinstance(library, Library) else load(library)
        text = bytes_of(lines) if isinstance(lines, (str, bytes)) else "\n".join(lines).encode()
        # (an LF at the end would be one empty line more)
        text = text[:-1] if text.endswith(b"\n") else text
        self._call("open", text)

    def _call(self, name: str, text: bytes) -> str:
        with self._lock:
            function = getattr(self._library.calls, f"photofleet_{name}")
            return self._room.call(function, ctypes.byref(self._session), text, len(text))

    def give(self, line: Line) -> Report | None:
        """Gives a line, and returns its report: None of a declaration, of an empty line or of a remark.

        It raises ScriptFault or NoMemory, or ValueError where the line has an LF, with the fleet as it was.
        """
        text = self._call("give", _line(line))
        return read_report(text) if text else None

    def ask(self, line: Line) -> Report | None:
        """The same of a line that is not kept: what would be printed of it now. The fleet is as it was."""
        text = self._call("ask", _line(line))
        return read_report(text) if text else None

    @property
    def is_open(self) -> bool:
        return bool(self._session.is_open)

    def close(self) -> None:
        """Gives the fleet's memory back. It may be called again, and does nothing then."""
        with self._lock:
            if self._session.is_open:
                self._library.calls.photofleet_close(ctypes.byref(self._session))

    def __enter__(self) -> Fleet:
        if not self.is_open:
            raise FleetClosed()
        return self

    def __exit__(self, *_: object) -> None:
        self.close()

    def __del__(self) -> None:
        if getattr(self, "_library", None) is not None:
            self.close()


def plain(script: Text | Iterable[str], *, library: Library | Path | None = None) -> str:
    """The texts of the right reports on a script, as the program `photofleet plain` prints them.

    `read_reports` makes values of them. It raises ScriptFault or NoMemory.
    """
    text = bytes_of(script) if isinstance(script, (str, bytes)) else "\n".join(script).encode()
    used = library if isinstance(library, Library) else load(library)
    return Room().call(used.calls.photofleet_plain, text, len(text))
