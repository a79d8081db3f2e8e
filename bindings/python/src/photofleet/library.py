"""Finds the shared library, and calls it."""
from __future__ import annotations

import ctypes
import ctypes.util
import functools
import os
import pathlib
import subprocess
from typing import Any, Union

from .faults import FleetClosed, FleetError, LibraryNotFound, NoMemory, ScriptFault

DONE, BAD_SESSION, BAD_SCRIPT, NO_MEMORY, TOO_SMALL = 0, 2, 3, 4, 5
ROOM = 1 << 14
Text = Union[str, bytes]


class Session(ctypes.Structure):
    """A session of the library. It begins closed, as zeros."""

    _fields_ = [("at", ctypes.c_void_p), ("is_open", ctypes.c_bool)]


class Room:
    """Memory into which the library writes its texts. It grows where a text has no room."""

    def __init__(self) -> None:
        self.out = ctypes.create_string_buffer(ROOM)
        self.written = ctypes.c_size_t()

    def call(self, function: Any, *given: Any) -> str:
        """Calls a function of the library, and gives the text that it wrote; a status that isn't 0 is raised."""
        status = function(*given, self.out, len(self.out), ctypes.byref(self.written))
        if status == TOO_SMALL:
            self.out = ctypes.create_string_buffer(self.written.value)
            status = function(*given, self.out, len(self.out), ctypes.byref(self.written))
        if status == BAD_SESSION:
            raise FleetClosed()
        text = ctypes.string_at(self.out, self.written.value).decode()
        if status == DONE:
            return text
        text = text.rstrip("\n")
        if status == NO_MEMORY or text == "script fault: F18 NoMemory":
            raise NoMemory(text)
        if status == BAD_SCRIPT:
            raise ScriptFault(text)
        raise FleetError(f"status {status} is none that this package knows")


class Library:
    """The shared library, loaded."""

    def __init__(self, path: str):
        self.path = path
        if path.endswith(".a"):
            raise LibraryNotFound(f"{path} is a static library. Python loads the shared one, libphotofleet.so beside it")
        try:
            self.calls = ctypes.CDLL(path)
            self.declare()
        except (OSError, AttributeError) as error:
            raise LibraryNotFound(f"{path} can not be used: {error}") from error

    def declare(self) -> None:
        size, session = ctypes.c_size_t, ctypes.POINTER(Session)
        written: list[Any] = [ctypes.c_char_p, size, ctypes.POINTER(size)]
        self.calls.photofleet_plain.argtypes = [ctypes.c_char_p, size, *written]
        for name in ("open", "give", "ask"):
            getattr(self.calls, f"photofleet_{name}").argtypes = [session, ctypes.c_char_p, size, *written]
        self.calls.photofleet_close.argtypes = [session]
        for name in ("plain", "open", "give", "ask", "close"):
            getattr(self.calls, f"photofleet_{name}").restype = ctypes.c_uint8

    @property
    def version(self) -> str | None:
        """What the library says of its version, or None where it is one that doesn't say it."""
        try:
            call = self.calls.photofleet_version
        except AttributeError:
            return None
        call.restype = ctypes.c_char_p
        said: bytes | None = call()
        return said.decode() if said else None


def bytes_of(text: Text) -> bytes:
    return text.encode() if isinstance(text, str) else bytes(text)


def _of_package() -> str | None:
    beside = pathlib.Path(__file__).with_name("libphotofleet.so")
    return str(beside) if beside.is_file() else None


def _of_pkg_config() -> str | None:
    words = ["pkg-config", "--variable=libdir", "photofleet"]
    try:
        said = subprocess.run(words, capture_output=True, text=True, check=True).stdout.strip()
    except (OSError, subprocess.CalledProcessError):
        return None
    path = os.path.join(said, "libphotofleet.so")
    return path if said and os.path.isfile(path) else None


def find_library() -> str:
    """The path of the library where none is given: what PHOTOFLEET_LIBRARY says, the package's own file, or the system's."""
    found = os.environ.get("PHOTOFLEET_LIBRARY") or _of_package() or _of_pkg_config() or ctypes.util.find_library("photofleet")
    if not found:
        raise LibraryNotFound(
            "there is no libphotofleet.so in the package, and none of the system's: tools/build/build-c makes it, "
            "and PHOTOFLEET_LIBRARY tells where it is"
        )
    return found


@functools.lru_cache(maxsize=None)
def _loaded(path: str) -> Library:
    return Library(path)


def load(path: str | os.PathLike[str] | None = None) -> Library:
    """Loads the library of that path, or else the one that `find_library` finds. It is loaded once."""
    return _loaded(os.fspath(path) if path is not None else find_library())
