"""Reports as values, beside their text."""
from __future__ import annotations

from dataclasses import dataclass
from typing import Any

from .values import Conflict, Counts, Fragment, Held, Version


@dataclass(frozen=True)
class Report:
    """The report on a command: the command's number, and the text, with its LF."""

    number: int
    text: str

    @property
    def answer(self) -> Any:
        """What it says beside its number, as one value: that of the field or fields below. None of a refusal."""
        return None


@dataclass(frozen=True)
class Made(Report):
    """On `new`, `edit` and `remove`: the version that was made, and whether it is in the store or in the out."""

    version: Version
    place: str

    @property
    def answer(self) -> Version:
        return self.version


@dataclass(frozen=True)
class Refused(Report):
    """A command that the fleet refused, as it stands: C1 NotHeld or C2 NotNarrower."""

    code: str
    name: str


@dataclass(frozen=True)
class Narrowed(Report):
    """On `narrow`: how many versions moved to the out."""

    moved: int

    @property
    def answer(self) -> int:
        return self.moved


@dataclass(frozen=True)
class Refiltered(Report):
    """On `refilter`: how many versions are in the store then, and in the out."""

    store: int
    out: int

    @property
    def answer(self) -> tuple[int, int]:
        return self.store, self.out


@dataclass(frozen=True)
class Pulled(Report):
    """On `pull`."""

    counts: Counts

    @property
    def answer(self) -> Counts:
        return self.counts


@dataclass(frozen=True)
class Previewed(Report):
    """On `preview`: what a pull would count."""

    counts: Counts

    @property
    def answer(self) -> Counts:
        return self.counts


@dataclass(frozen=True)
class Listed(Report):
    """On `list`: all that the device holds, in order."""

    device: str
    store: tuple[Held, ...]
    out: tuple[Held, ...]

    @property
    def held(self) -> tuple[Held, ...]:
        return self.store + self.out

    @property
    def answer(self) -> tuple[Held, ...]:
        return self.held


@dataclass(frozen=True)
class InConflict(Report):
    """On `conflicts`."""

    device: str
    conflicts: tuple[Conflict, ...]

    @property
    def answer(self) -> tuple[Conflict, ...]:
        return self.conflicts


@dataclass(frozen=True)
class Known(Report):
    """On `knowledge`: the first fragment is what is known of every picture, further ones what more is known of some."""

    device: str
    fragments: tuple[Fragment, ...]

    @property
    def answer(self) -> tuple[Fragment, ...]:
        return self.fragments


@dataclass(frozen=True)
class Knowing(Report):
    """On `knows`."""

    known: bool

    @property
    def answer(self) -> bool:
        return self.known


def _lines(text: str) -> list[str]:
    # (a word may have a character at which `splitlines` cuts)
    return text.removesuffix("\n").split("\n") if text else []


def _versions(words: list[str]) -> tuple[Version, ...]:
    return tuple(Version.read(it) for it in words if it != "-")


def _fragment(line: str) -> Fragment:
    pictures, *entries = line.split()
    return Fragment(None if pictures == "*" else tuple(map(int, pictures.split(","))), _versions(entries))


def _conflict(line: str) -> Conflict:
    picture, *versions = line.split()
    return Conflict(int(picture), _versions(versions))


def read_report(text: str) -> Report:
    """Reads the text of one report."""
    first, *further = _lines(text)
    digits, word, *rest = first.split(" ")
    number = int(digits)
    match word, rest:
        case "made", [version, place]:
            return Made(number, text, Version.read(version), place)
        case "refused", [code, name]:
            return Refused(number, text, code, name)
        case "narrowed", [moved]:
            return Narrowed(number, text, int(moved))
        case "refiltered", [_, store, _, out]:
            return Refiltered(number, text, int(store), int(out))
        case ("pulled" | "preview"), [_, taken, _, handed, _, notices, _, dropped, _, learned]:
            counts = Counts(int(taken), int(handed), int(notices), int(dropped), learned == "yes")
            return Pulled(number, text, counts) if word == "pulled" else Previewed(number, text, counts)
        case "list", [device, _, _, _, _]:
            held = [Held.read(it) for it in further]
            stored, waiting = ([it for it in held if it.place == place] for place in ("store", "out"))
            return Listed(number, text, device, tuple(stored), tuple(waiting))
        case "conflicts", [device, _]:
            return InConflict(number, text, device, tuple(map(_conflict, further)))
        case "knowledge", [device, _]:
            return Known(number, text, device, tuple(map(_fragment, further)))
        case "knows", [answer]:
            return Knowing(number, text, answer == "yes")
    raise ValueError(f"no report: {text!r}")


def read_reports(text: str) -> tuple[Report, ...]:
    """Reads the texts of reports, one after another, as `plain` gives them."""
    blocks: list[str] = []
    for line in _lines(text):
        if line.startswith("  "):
            blocks[-1] += f"{line}\n"
        else:
            blocks.append(f"{line}\n")
    return tuple(map(read_report, blocks))
