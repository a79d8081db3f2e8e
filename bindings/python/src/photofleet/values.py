"""What scripts and reports say, as values: versions, records, filters, held versions, counts and knowledge."""
from __future__ import annotations

import unicodedata
from dataclasses import dataclass
from typing import Iterable, NamedTuple

FIRST_DAY, LAST_DAY = "0000-01-01", "9999-12-31"


def _composed(words: Iterable[str]) -> frozenset[str]:
    """Words in Unicode's form C, in which the judge compares them."""
    return frozenset(unicodedata.normalize("NFC", it) for it in words)


class Version(NamedTuple):
    """A version of a picture, called by its maker: the device, the device's epoch, and the number in it, from 1."""

    device: str
    epoch: int
    number: int

    @classmethod
    def read(cls, text: str) -> Version:
        """Reads `cam:3`, or `cam.1:3` of a later epoch."""
        author, _, number = text.partition(":")
        device, _, epoch = author.partition(".")
        return cls(device, int(epoch or 0), int(number))

    def __str__(self) -> str:
        return f"{self.device}{f'.{self.epoch}' if self.epoch else ''}:{self.number}"


class Record(NamedTuple):
    """What a version says of its picture. That a picture was removed is None in the place of a record."""

    rating: int
    day: str = "2024-05-01"
    words: tuple[str, ...] = ()

    @classmethod
    def read(cls, text: str) -> Record | None:
        """Reads a record as a report has it: `rating 5 day 2024-05-01 words beach,sun`, or `removed`."""
        if text == "removed":
            return None
        _, rating, _, day, _, words = text.split(" ")
        return cls(int(rating), day, () if words == "-" else tuple(words.split(",")))

    def __str__(self) -> str:
        return f"rating {self.rating} day {self.day} words {','.join(self.words) or '-'}"

    @property
    def fields(self) -> str:
        """The fields of a command: `5 2024-05-01 beach,sun`."""
        return f"{self.rating} {self.day} {','.join(self.words) or '-'}"


class Held(NamedTuple):
    """A version that a device holds, in its store (what it is to keep) or in its out (what waits for another device)."""

    place: str
    picture: int
    version: Version
    record: Record | None

    @classmethod
    def read(cls, line: str) -> Held:
        place, picture, version, record = line.removeprefix("  ").split(" ", 3)
        return cls(place, int(picture), Version.read(version), Record.read(record))

    def __str__(self) -> str:
        return f"{self.place} {self.picture} {self.version} {self.record or 'removed'}"


class Counts(NamedTuple):
    """What a pull counts, or a preview of one."""

    taken: int
    handed: int
    notices: int
    dropped: int
    learned: bool


class Conflict(NamedTuple):
    """A picture of which a device holds two or more versions."""

    picture: int
    versions: tuple[Version, ...]


class Fragment(NamedTuple):
    """What is known of some pictures, or of every one where `pictures` is None: each version stands for those up to it."""

    pictures: tuple[int, ...] | None
    versions: tuple[Version, ...]


class Alternative(NamedTuple):
    """A part of a filter: the ratings and days that it allows, and the words that have to be there or must not."""

    ratings: tuple[int, int] = (0, 5)
    days: tuple[str, str] = (FIRST_DAY, LAST_DAY)
    required: frozenset[str] = frozenset()
    forbidden: frozenset[str] = frozenset()

    def selects(self, record: Record) -> bool:
        words = _composed(record.words)
        return (
            self.ratings[0] <= record.rating <= self.ratings[1]
            and self.days[0] <= record.day <= self.days[1]
            and _composed(self.required) <= words
            and not _composed(self.forbidden) & words
        )

    def asks_no_more_than(self, other: Alternative) -> bool:
        return (
            self.ratings[0] <= other.ratings[0]
            and other.ratings[1] <= self.ratings[1]
            and self.days[0] <= other.days[0]
            and other.days[1] <= self.days[1]
            and self.required <= other.required
            and self.forbidden <= other.forbidden
        )

    def and_also(self, other: Alternative) -> Alternative:
        """What asks for both."""
        (low, high), (first, last) = zip(self.ratings, other.ratings), zip(self.days, other.days)
        ranges = (max(low), min(high)), (max(first), min(last))
        return Alternative(*ranges, self.required | other.required, self.forbidden | other.forbidden)

    def is_possible(self) -> bool:
        return self.ratings[0] <= self.ratings[1] and self.days[0] <= self.days[1] and not self.required & self.forbidden

    def __str__(self) -> str:
        tests = []
        for word, (low, high), (least, most) in (("rating", self.ratings, (0, 5)), ("day", self.days, (FIRST_DAY, LAST_DAY))):
            if low == high:
                tests.append(f"{word} = {low}")
                continue
            tests += [f"{word} >= {low}"] * (low != least) + [f"{word} <= {high}"] * (high != most)
        tests += [f"keyword {it}" for it in sorted(self.required)] + [f"not keyword {it}" for it in sorted(self.forbidden)]
        return " and ".join(tests) or "all"


@dataclass(frozen=True)
class Filter:
    """What a device is to keep, by alternatives. `str` of it is its text in a script. Words are in form C, as in scripts."""

    alternatives: tuple[Alternative, ...]

    def __post_init__(self) -> None:
        composed = tuple(it._replace(required=_composed(it.required), forbidden=_composed(it.forbidden)) for it in self.alternatives)
        object.__setattr__(self, "alternatives", composed)
        if not all(it.is_possible() for it in self.alternatives):
            raise ValueError("an alternative that no record fits")

    @classmethod
    def read(cls, text: str) -> Filter:
        """Reads a filter as `str` prints one: tests with `and` between them, and `or` between these, without brackets."""
        if text == "none":
            return cls(())
        alternatives: list[Alternative] = []
        tokens = ["or", *text.split(" ")]
        while tokens:
            match tokens:
                case ["and" | "or" as joint, "all", *tokens]:
                    test = Alternative()
                case ["and" | "or" as joint, "rating", "=" | ">=" | "<=" as sign, rating, *tokens]:
                    test = Alternative(ratings=(int(rating) if sign != "<=" else 0, int(rating) if sign != ">=" else 5))
                case ["and" | "or" as joint, "day", "=" | ">=" | "<=" as sign, day, *tokens]:
                    test = Alternative(days=(day if sign != "<=" else FIRST_DAY, day if sign != ">=" else LAST_DAY))
                case ["and" | "or" as joint, "keyword", word, *tokens]:
                    test = Alternative(required=frozenset([word]))
                case ["and" | "or" as joint, "not", "keyword", word, *tokens]:
                    test = Alternative(forbidden=frozenset([word]))
                case _:
                    raise ValueError(f"no filter without brackets: {text!r}")
            alternatives.append(alternatives.pop().and_also(test) if joint == "and" else test)
        return cls(tuple(alternatives))

    def selects(self, record: Record | None) -> bool:
        """Whether it selects a record. It selects none that says that the picture was removed."""
        return record is not None and any(it.selects(record) for it in self.alternatives)

    def covers(self, other: Filter) -> bool:
        """Whether it is seen, by alternatives, to select all that the other selects."""
        return all(any(own.asks_no_more_than(it) for own in self.alternatives) for it in other.alternatives)

    def __str__(self) -> str:
        return " or ".join(map(str, self.alternatives)) or "none"


def rated(low: int = 0, high: int = 5, *, required: Iterable[str] = (), forbidden: Iterable[str] = ()) -> Filter:
    """The filter of ratings from `low` to `high`, with words that have to be there or must not."""
    return Filter((Alternative((low, high), required=frozenset(required), forbidden=frozenset(forbidden)),))


ALL, NONE = rated(), Filter(())
