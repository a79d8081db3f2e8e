"""A small sync engine of its own design: each device has two sets that only grow, of which the rest is computed.

The one set has all entries that the device was told of, the other the versions that some entry replaces. What a device
shows is what its filter selects among the entries that nothing replaces; a removal is an entry without a record. Entries
that the filter leaves out wait at the device until another one takes them. Filters and records are the caller's: a filter
`selects` a record, and `covers` another filter.
"""
from typing import NamedTuple


class Version(NamedTuple):
    device: str
    epoch: int
    number: int


class Entry(NamedTuple):
    version: Version
    picture: int
    record: object
    replaces: frozenset


class Device:
    def __init__(self, name, keeps):
        self.name, self.keeps = name, keeps
        self.epoch = self.count = 0
        self.entries, self.replaced, self.waiting = set(), set(), set()

    # what it knows and holds

    def knows(self, entry):
        return entry in self.entries or (entry.picture, entry.version) in self.replaced

    def newest(self):
        return {it for it in self.entries if (it.picture, it.version) not in self.replaced}

    def store(self):
        return {it for it in self.newest() if self.keeps.selects(it.record)}

    def out(self):
        return {it for it in self.newest() if it in self.waiting and not self.keeps.selects(it.record)}

    def held(self):
        return self.store() | self.out()

    # what it does

    def learn(self, entries):
        self.entries |= entries
        self.replaced |= {(it.picture, version) for it in entries for version in it.replaces}

    def make(self, picture, record):
        """Makes a version of a picture, with None as its record where it removes it."""
        self.count += 1
        known = {it.version for it in self.entries if it.picture == picture}
        known |= {version for of, version in self.replaced if of == picture}
        entry = Entry(Version(self.name, self.epoch, self.count), picture, record, frozenset(known))
        self.learn({entry})
        self.waiting.add(entry)
        return entry.version

    def narrow(self, keeps):
        """Takes a filter that its own covers, and tells how many entries wait now that were shown."""
        moved = {it for it in self.store() if not keeps.selects(it.record)}
        self.waiting |= moved
        self.keeps = keeps
        return len(moved)

    def refilter(self, keeps):
        """Takes any filter. What it doesn't hold it forgets, so that the next pulls bring what the new filter wants."""
        held = self.held()
        self.entries, self.replaced, self.waiting = set(), set(), held
        self.learn(held)
        self.keeps, self.epoch, self.count = keeps, self.epoch + 1, 0
        return len(self.store()), len(self.out())

    def handed_over(self, entries):
        """Is told which of its waiting entries another device has taken."""
        self.waiting -= entries

    def pull(self, source):
        """Takes and learns from another device. It tells what was taken, handed over, noticed and dropped, and whether it learned all."""
        held, unknown = self.held(), {it for it in source.held() if not self.knows(it)}
        handed = unknown & source.out()
        taken = {it for it in unknown - handed if self.keeps.selects(it.record)}
        versions = {it.version for it in held}
        noticed = {it for it in unknown - handed - taken if it.replaces & versions}
        learns_all = source.keeps.covers(self.keeps)
        self.learn(taken | handed | noticed)
        self.waiting |= handed
        if learns_all:
            self.entries |= source.entries
            self.replaced |= source.replaced
        source.handed_over(handed)
        return len(taken), len(handed), len(noticed), len(held - self.held()), learns_all


# Three mistakes that such engines have.


class ForgetsRemovals(Device):
    """Forgets a picture when its removal was handed over, to save the room."""

    def handed_over(self, entries):
        super().handed_over(entries)
        gone = {it.picture for it in entries if it.record is None}
        self.entries = {it for it in self.entries if it.picture not in gone}
        self.replaced = {(of, version) for of, version in self.replaced if of not in gone}


class LastWriterWins(Device):
    """Keeps one entry of a picture, the one with the greatest version."""

    def newest(self):
        last = {}
        for it in sorted(super().newest(), key=lambda it: (it.version.number, it.version.device)):
            last[it.picture] = it
        return set(last.values())


class CountsWhatItSaw(Device):
    """Keeps one number for each device, the greatest that it saw, and takes all up to that as seen."""

    def knows(self, entry):
        author = entry.version[:2]
        return entry.version.number <= max((it.version.number for it in self.entries if it.version[:2] == author), default=0)
