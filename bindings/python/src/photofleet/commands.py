"""Commands as values. `str` of one is its line in a script, and `read_command` reads the line of a change."""
from __future__ import annotations

from dataclasses import dataclass
from typing import Union

from .values import Filter, Record, Version


@dataclass(frozen=True)
class New:
    """The device makes the first version of a picture."""

    device: str
    picture: int
    record: Record

    def __str__(self) -> str:
        return f"new {self.device} {self.picture} {self.record.fields}"


@dataclass(frozen=True)
class Edit:
    """The device makes a further version of a picture of which it holds one."""

    device: str
    picture: int
    record: Record

    def __str__(self) -> str:
        return f"edit {self.device} {self.picture} {self.record.fields}"


@dataclass(frozen=True)
class Remove:
    """Likewise, a version that removes the picture."""

    device: str
    picture: int

    def __str__(self) -> str:
        return f"remove {self.device} {self.picture}"


@dataclass(frozen=True)
class Pull:
    """The target takes and learns from the source."""

    target: str
    source: str

    def __str__(self) -> str:
        return f"pull {self.target} {self.source}"


@dataclass(frozen=True)
class Narrow:
    """The device's filter becomes one that its own covers."""

    device: str
    filter: Filter

    def __str__(self) -> str:
        return f"narrow {self.device} {self.filter}"


@dataclass(frozen=True)
class Refilter:
    """The device gets any filter, and begins its next epoch."""

    device: str
    filter: Filter

    def __str__(self) -> str:
        return f"refilter {self.device} {self.filter}"


@dataclass(frozen=True)
class List:
    """Asks what the device holds."""

    device: str

    def __str__(self) -> str:
        return f"list {self.device}"


@dataclass(frozen=True)
class Conflicts:
    """Asks of which pictures the device holds two or more versions."""

    device: str

    def __str__(self) -> str:
        return f"conflicts {self.device}"


@dataclass(frozen=True)
class Knowledge:
    """Asks for all that the device knows."""

    device: str

    def __str__(self) -> str:
        return f"knowledge {self.device}"


@dataclass(frozen=True)
class Knows:
    """Asks whether the device knows a version of the picture."""

    device: str
    picture: int
    version: Version

    def __str__(self) -> str:
        return f"knows {self.device} {self.picture} {self.version}"


@dataclass(frozen=True)
class Preview:
    """Asks what a pull would count."""

    target: str
    source: str

    def __str__(self) -> str:
        return f"preview {self.target} {self.source}"


Change = Union[New, Edit, Remove, Pull, Narrow, Refilter]
Question = Union[List, Conflicts, Knowledge, Knows, Preview]
Command = Union[Change, Question]


def read_command(line: str) -> Change:
    """Reads a command that changes something, as `str` of one has it, with a filter that `Filter.read` reads."""
    match line.split(" "):
        case ["new" | "edit" as word, device, picture, rating, day, words]:
            record = Record(int(rating), day, () if words == "-" else tuple(words.split(",")))
            return (New if word == "new" else Edit)(device, int(picture), record)
        case ["remove", device, picture]:
            return Remove(device, int(picture))
        case ["pull", target, source]:
            return Pull(target, source)
        case ["narrow" | "refilter" as word, device, *rest]:
            return (Narrow if word == "narrow" else Refilter)(device, Filter.read(" ".join(rest)))
    raise ValueError(f"no command that changes something: {line!r}")
