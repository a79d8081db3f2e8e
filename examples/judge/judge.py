"""Tests the engine of engine.py, and three of its like with a mistake each, with the proved engine as their judge.

    python3 examples/judge/judge.py
"""
import sys
import time

import photofleet
from photofleet.testing import JudgedMachine, difference

import engine


class Household(JudgedMachine):
    """The engine against the judge: what each command reports, and all that each device holds."""

    kind = engine.Device
    edits_removed = True

    def open(self, devices):
        self.devices = {name: self.kind(name, keeps) for name, keeps in devices.items()}

    def new(self, device, picture, record):
        return self.devices[device].make(picture, record)

    edit = new

    def remove(self, device, picture):
        return self.devices[device].make(picture, None)

    def pull(self, target, source):
        return self.devices[target].pull(self.devices[source])

    def narrow(self, device, filter):
        return self.devices[device].narrow(filter)

    def refilter(self, device, filter):
        return self.devices[device].refilter(filter)

    def holds(self, device):
        one = self.devices[device]
        for place, entries in (("store", one.store()), ("out", one.out())):
            for it in entries:
                yield photofleet.Held(place, it.picture, photofleet.Version(*it.version), it.record)


class Shown(Household):
    """The same by what people see, the pictures that a device shows. Nothing is said of reports, and nothing of what waits."""

    def new(self, device, picture, record):
        self.devices[device].make(picture, record)

    edit = new

    def remove(self, device, picture):
        self.devices[device].make(picture, None)

    def pull(self, target, source):
        self.devices[target].pull(self.devices[source])

    def narrow(self, device, filter):
        self.devices[device].narrow(filter)

    def refilter(self, device, filter):
        self.devices[device].refilter(filter)

    def view(self, held):
        return f"{held.picture} {held.version}" if held.place == "store" else None

    def holds(self, device):
        return [f"{it.picture} {photofleet.Version(*it.version)}" for it in self.devices[device].store()]


class ShownWithoutEdits(Shown):
    """A command whose method is that of JudgedMachine isn't drawn."""

    edit = JudgedMachine.edit


# What is compared, which engine, how many runs at most, and the seed
TESTS = {
    "The engine as it is": (Household, engine.Device, 200, 1),
    "A removal that comes back": (ShownWithoutEdits, engine.ForgetsRemovals, 5000, 4),
    "An edit that is lost in a conflict": (Shown, engine.LastWriterWins, 5000, 2),
    "A version that is believed to be seen": (Shown, engine.CountsWhatItSaw, 5000, 8),
}


def main():
    for title, (machine, kind, runs, seed) in TESTS.items():
        begun = time.monotonic()
        found = difference(type(kind.__name__, (machine,), {"kind": kind}), runs=runs, seed=seed)
        print(f"{title}: {found or f'{runs} runs are alike'}\n")
        print(f"{title}: {time.monotonic() - begun:.0f} seconds", file=sys.stderr)


if __name__ == "__main__":
    main()
