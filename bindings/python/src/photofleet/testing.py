"""Tests of a sync engine of one's own with Hypothesis, and the proved engine as their judge.

`JudgedMachine` is a state machine to derive from: one writes what one's own engine does for each command and what it holds,
and after each step it compares that with the judge. `devices`, `filters`, `records`, `commands` and `runs` are its
strategies, for tests of another form.

What is drawn is meant to bite. Evenly drawn runs mostly test nothing: one device alone holds a picture, and pulls move nothing.
So there are few pictures. Edits and removals are of what a device holds, most often of what two devices hold. After an edit
another holder often edits the same, which makes a conflict. After a pull often comes the pull back, or one of the same source
by a third device. Filters overlap, so that a version is kept here, waits there and is only noticed elsewhere. The fleet can
take every command as it stands, so no step is lost to a refusal.
"""
from __future__ import annotations

import os
from collections import Counter
from dataclasses import replace
from itertools import chain
from typing import Any, Callable, ClassVar, Iterable, Mapping, Sequence, Union

from hypothesis import HealthCheck, Phase, settings, strategies as st
from hypothesis import seed as with_seed
from hypothesis.errors import UnsatisfiedAssumption
from hypothesis.stateful import RuleBasedStateMachine, initialize, precondition, rule, run_state_machine_as_test

from .commands import Change, Edit, Narrow, New, Pull, Refilter, Remove, read_command
from .fleet import Fleet
from .library import Library
from .reports import Listed, Report
from .values import ALL, Filter, Held, Record, rated

NAMES = "abcdefgh"
DAYS = ("2024-05-01", "2024-05-02")
WORDS = ("sea", "sun")
# Filters that overlap: all but one pair of them have a record that both select, and each has one that only one of them does.
FILTERS = (ALL, rated(3), rated(0, 3), rated(2, 4), rated(forbidden=["sea"]), rated(2, required=["sun"]), rated(4))
PICTURES = 3
# The methods of commands that a machine may have
COMMANDS = {
    "new": "new(device, picture, record)", "edit": "edit(device, picture, record)", "remove": "remove(device, picture)",
    "pull": "pull(target, source)", "narrow": "narrow(device, filter)", "refilter": "refilter(device, filter)",
}
# How many commands are few enough to be changed and left out at once where a run is shrunk
FEW = 7


# Strategies


def filters(pool: Sequence[Filter] = FILTERS) -> st.SearchStrategy[Filter]:
    """Filters that overlap, the plainest first."""
    return st.sampled_from(pool)


def records(words: Sequence[str] = WORDS) -> st.SearchStrategy[Record]:
    """Records, of few days and words."""
    sets = st.lists(st.sampled_from(sorted(words)), unique=True, max_size=2).map(lambda it: tuple(sorted(it))) if words else st.just(())
    return st.builds(Record, st.integers(0, 5), st.sampled_from(DAYS), sets)


def devices(least: int = 2, most: int = 3, pool: Sequence[Filter] = FILTERS) -> st.SearchStrategy[dict[str, Filter]]:
    """Devices with their filters, by their names. Half of them have the first filter, as a server has that keeps everything."""
    return st.lists(st.one_of(st.just(pool[0]), filters(pool)), min_size=least, max_size=most).map(lambda drawn: dict(zip(NAMES, drawn)))


class Standing:
    """A fleet as it stands by the judge: the devices with their filters, what they hold, and the lines so far."""

    def __init__(self, declared: Mapping[str, Filter], *, library: Library | str | os.PathLike[str] | None = None, pictures: int = PICTURES,
                 edits_removed: bool = True, edits_waiting: bool = True):
        self.edits_removed, self.edits_waiting = edits_removed, edits_waiting
        self.declared, self.filters = dict(declared), dict(declared)
        self.given: list[Change] = []
        self.lines = [f"device {name} {text}" for name, text in declared.items()]
        self.fleet = Fleet(self.lines, library=library)
        self.held: dict[str, tuple[Held, ...]] = {name: () for name in declared}
        self.made = 0
        self.pictures = pictures
        self.last_pull: Pull | None = None

    def run(self, command: Change) -> Report:
        """Gives the judge a command, and asks what the devices hold that it works on."""
        report = self.fleet.give(command)
        assert report is not None
        self.lines.append(str(command))
        self.given.append(command)
        match command:
            case New():
                self.made = max(self.made, command.picture)
            case Pull():
                self.last_pull = command
            case Narrow(device, filter) | Refilter(device, filter):
                self.filters[device] = filter
        touched = (command.target, command.source) if isinstance(command, Pull) else (command.device,)
        for name in touched:
            listed = self.fleet.ask(f"list {name}")
            assert isinstance(listed, Listed)
            self.held[name] = listed.held
        return report

    def _edited(self, name: str) -> set[int]:
        """The pictures that the device holds and that may be edited."""
        held = (it for it in self.held[name] if self.edits_waiting or it.place == "store")
        return {it.picture for it in held if self.edits_removed or it.record is not None}

    def holds(self, name: str, picture: int) -> bool:
        return picture in self._edited(name)

    def takes(self, command: Change) -> bool:
        """Whether the fleet can take the command as it stands, without a fault and without a refusal."""
        if not _names(command) <= set(self.filters):
            return False
        match command:
            case New():
                return all(not isinstance(it, New) or it.picture != command.picture for it in self.given)
            case Edit() | Remove():
                return self.holds(command.device, command.picture)
            case Narrow(device, filter):
                return self.filters[device].covers(filter)
        return True

    def held_by(self, least: int = 1) -> list[tuple[str, int]]:
        """Devices with a picture of theirs that at least so many devices hold."""
        everywhere = Counter(picture for name in self.held for picture in self._edited(name))
        return [(name, it) for name in self.held for it in sorted(self._edited(name)) if everywhere[it] >= least]

    def brings(self, pull: Pull) -> bool:
        """Whether the source holds what the target doesn't hold."""
        versions = {it.version for it in self.held[pull.target]}
        return any(it.version not in versions for it in self.held[pull.source])

    def rivals(self) -> list[tuple[str, int]]:
        """The devices that hold the picture whose version was made last, beside the one that made it."""
        last = next((it for it in reversed(self.given) if isinstance(it, (Edit, Remove))), None)
        if last is None:
            return []
        return [(name, last.picture) for name in self.held if name != last.device and self.holds(name, last.picture)]

    def narrower(self, name: str, pool: Sequence[Filter] = FILTERS) -> list[Filter]:
        return [it for it in pool if self.filters[name].covers(it) and it != self.filters[name]]


def makes(standing: Standing) -> st.SearchStrategy[New]:
    return st.builds(New, st.sampled_from(sorted(standing.filters)), st.just(standing.made + 1), records())


def edits(standing: Standing, shared_by: int = 1) -> st.SearchStrategy[Edit]:
    held = st.sampled_from(standing.held_by(shared_by))
    return st.builds(lambda at, record: Edit(at[0], at[1], record), held, records())


def rival_edits(standing: Standing) -> st.SearchStrategy[Edit]:
    """Edits of what another device has just edited or removed."""
    return st.builds(lambda at, record: Edit(at[0], at[1], record), st.sampled_from(standing.rivals()), records())


def removals(standing: Standing, shared_by: int = 1) -> st.SearchStrategy[Remove]:
    return st.sampled_from(standing.held_by(shared_by)).map(lambda at: Remove(at[0], at[1]))


def pulls(standing: Standing) -> st.SearchStrategy[Pull]:
    """Pulls, and of three two that move or tell something, where there are such."""
    names = sorted(standing.filters)
    every = [Pull(target, source) for target in names for source in names if target != source]
    moving = [it for it in every if standing.brings(it)]
    return st.sampled_from(moving * (2 * len(every) // max(len(moving), 1)) + every)


def following_pulls(standing: Standing) -> st.SearchStrategy[Pull]:
    """Pulls that go on from the last one: back, from its target, or again from its source by another device."""
    last = standing.last_pull
    assert last is not None
    others = [it for it in sorted(standing.filters) if it not in (last.target, last.source)]
    back = [Pull(last.source, last.target)]
    return st.sampled_from(back + [Pull(it, source) for it in others for source in (last.target, last.source)])


def narrowings(standing: Standing, pool: Sequence[Filter] = FILTERS) -> st.SearchStrategy[Narrow]:
    return st.sampled_from([Narrow(name, it) for name in sorted(standing.filters) for it in standing.narrower(name, pool)])


def refilterings(standing: Standing, pool: Sequence[Filter] = FILTERS) -> st.SearchStrategy[Refilter]:
    return st.builds(Refilter, st.sampled_from(sorted(standing.filters)), filters(pool))


def commands(standing: Standing) -> st.SearchStrategy[Change]:
    """Commands that the fleet can take as it stands. As long as there is no picture one is made."""
    kinds: list[st.SearchStrategy[Any]] = [makes(standing)] if standing.made < standing.pictures else []
    if not standing.made:
        return kinds[0]
    kinds += [pulls(standing)] * 2
    if standing.last_pull:
        kinds.append(following_pulls(standing))
    if standing.held_by():
        kinds += [edits(standing), removals(standing, 2 if standing.held_by(2) else 1)]
    if standing.held_by(2):
        kinds += [edits(standing, 2)] * 3
    if standing.rivals():
        kinds += [rival_edits(standing)] * 4
    if any(standing.narrower(it) for it in standing.filters):
        kinds.append(narrowings(standing))
    kinds.append(refilterings(standing))
    return st.integers(0, len(kinds) - 1).flatmap(lambda it: kinds[it])


@st.composite
def runs(draw: st.DrawFn, declared: st.SearchStrategy[dict[str, Filter]] | None = None, most: int = 20,
         library: Library | str | os.PathLike[str] | None = None) -> tuple[dict[str, Filter], list[Change]]:
    """Whole runs: devices, and commands of which each can be taken behind those before it."""
    start = draw(declared if declared is not None else devices())
    standing, given = Standing(start, library=library), []
    with standing.fleet:
        for _ in range(draw(st.integers(min(most, 8), most))):
            given.append(draw(commands(standing)))
            standing.run(given[-1])
    return start, given


# The state machine


class Difference(AssertionError):
    """The engine does another thing than the judge: `lines` are the script, `about` is what was compared."""

    def __init__(self, standing: Standing, about: str, engine: object, judge: object):
        self.declared, self.given = standing.declared, list(standing.given)
        self.lines, self.about, self.engine, self.judge = list(standing.lines), about, engine, judge
        shown = [*self.lines, "", f"{about}:", "the engine:", *_shown(engine), "the judge:", *_shown(judge)]
        super().__init__("the engine and the judge differ after\n" + "\n".join(f"    {it}".rstrip() for it in shown))


def _shown(value: object) -> list[str]:
    if isinstance(value, list):
        return [f"  {it}" for it in value] or ["  nothing"]
    return [f"  {value}"]


def _has(machine: JudgedMachine, name: str) -> bool:
    """Whether a method of this name is written."""
    return getattr(type(machine), name) is not getattr(JudgedMachine, name)


def _takes(name: str) -> Callable[[Any], bool]:
    """Whether the engine has this command."""
    return lambda self: _has(self, name)


def _unwritten(machine: JudgedMachine, method: str) -> NotImplementedError:
    return NotImplementedError(f"{type(machine).__name__} has no method {method}")


def _counted(what: str, found: Sequence[Any]) -> Counter[Any]:
    try:
        return Counter(found)
    except TypeError as error:
        raise TypeError(f"what {what} gives has to be hashable, as a tuple is: {error}") from error


def _stands(holds: Callable[[Standing, JudgedMachine], object]) -> Callable[[Any], bool]:
    """Whether this holds of the fleet as it stands."""
    return lambda self: bool(holds(self.standing, self))


class JudgedMachine(RuleBasedStateMachine):
    """Derive from it, write `open`, `holds` and a method for each command that the engine has, and test `NAME.TestCase`.

    A command whose method isn't written is not drawn, and without `new` none is. What such a method returns is compared with
    what the judge reports (`Report.answer`: a Version, Counts, a number), and None is compared with nothing. What the engine
    holds is compared after each step, for every device: in any order, and what is there twice counts twice.

    Only commands that the judge takes are drawn, so a method needs no `hypothesis.assume`. One that calls it gives the run up.
    """

    #: the library, or its path, where it isn't found by itself
    library: ClassVar[Union[Library, str, None]] = None
    #: how many devices are drawn, at least and at most, and the filters that they are given
    least_devices: ClassVar[int] = 2
    most_devices: ClassVar[int] = 3
    filters: ClassVar[Sequence[Filter]] = FILTERS
    #: how many pictures are drawn at most
    pictures: ClassVar[int] = PICTURES
    #: whether a picture is edited, or removed again, of which the device holds nothing but its removal, as a fleet may do
    edits_removed: ClassVar[bool] = False
    #: whether a picture is edited, or removed, that the judge's device holds in its out alone; False is for engines without outs
    edits_waiting: ClassVar[bool] = True

    standing: Standing | None = None

    # What one writes.

    def open(self, devices: Mapping[str, Filter]) -> None:
        """Opens the engine's devices, which hold nothing."""
        raise _unwritten(self, "open(devices)")

    def holds(self, device: str) -> Iterable[Any]:
        """What the engine's device holds, each as `view` gives it of what the judge's does: as `Held`, where it is not written.

        Each has to be hashable, as what `view` and `views` give.
        """
        raise _unwritten(self, "holds(device)")

    def view(self, held: Held) -> Any:
        """What is compared of a version that the judge's device holds; None where the engine doesn't have its like."""
        return held

    def views(self, device: str, held: Sequence[Held]) -> Iterable[Any]:
        """The same of all versions that the judge's device holds, for an engine that keeps one of several: `view` of each."""
        return [it for it in map(self.view, held) if it is not None]

    def new(self, device: str, picture: int, record: Record) -> object:
        raise _unwritten(self, COMMANDS["new"])

    def edit(self, device: str, picture: int, record: Record) -> object:
        raise _unwritten(self, COMMANDS["edit"])

    def remove(self, device: str, picture: int) -> object:
        raise _unwritten(self, COMMANDS["remove"])

    def pull(self, target: str, source: str) -> object:
        raise _unwritten(self, COMMANDS["pull"])

    def narrow(self, device: str, filter: Filter) -> object:
        raise _unwritten(self, COMMANDS["narrow"])

    def refilter(self, device: str, filter: Filter) -> object:
        raise _unwritten(self, COMMANDS["refilter"])

    # What is drawn. The names of the rules stand in what Hypothesis prints.

    @initialize(data=st.data())
    def opens(self, data: st.DataObject) -> None:
        self.begin(data.draw(devices(self.least_devices, self.most_devices, self.filters), label="devices"))

    def begin(self, declared: Mapping[str, Filter]) -> None:
        """Opens the judge and the engine."""
        if not _has(self, "new"):
            every = ", ".join(COMMANDS.values())
            raise NotImplementedError(f"{_unwritten(self, COMMANDS['new'])}, so no command is drawn. The methods of commands are: {every}")
        self.standing = Standing(
            declared, library=self.library, pictures=self.pictures, edits_removed=self.edits_removed, edits_waiting=self.edits_waiting
        )
        self.open(dict(declared))
        self._compare_all()

    @precondition(_takes("new"))
    @precondition(_stands(lambda standing, self: standing.made < self.pictures))
    @rule(data=st.data())
    def makes_one(self, data: st.DataObject) -> None:
        self.step(data.draw(makes(self._now()), label="command"))

    @precondition(_takes("edit"))
    @precondition(_stands(lambda standing, self: standing.held_by()))
    @rule(data=st.data())
    def edits_one(self, data: st.DataObject) -> None:
        self.step(data.draw(edits(self._now()), label="command"))

    @precondition(_takes("edit"))
    @precondition(_stands(lambda standing, self: standing.held_by(2)))
    @rule(data=st.data())
    def edits_a_shared_one(self, data: st.DataObject) -> None:
        self.step(data.draw(edits(self._now(), 2), label="command"))

    @precondition(_takes("edit"))
    @precondition(_stands(lambda standing, self: standing.rivals()))
    @rule(data=st.data())
    def edits_against_another(self, data: st.DataObject) -> None:
        self.step(data.draw(rival_edits(self._now()), label="command"))

    @precondition(_takes("remove"))
    @precondition(_stands(lambda standing, self: standing.held_by()))
    @rule(data=st.data())
    def removes_one(self, data: st.DataObject) -> None:
        self.step(data.draw(removals(self._now()), label="command"))

    @precondition(_takes("remove"))
    @precondition(_stands(lambda standing, self: standing.held_by(2)))
    @rule(data=st.data())
    def removes_a_shared_one(self, data: st.DataObject) -> None:
        self.step(data.draw(removals(self._now(), 2), label="command"))

    @precondition(_takes("pull"))
    @precondition(_stands(lambda standing, self: standing.made))
    @rule(data=st.data())
    def pulls_one(self, data: st.DataObject) -> None:
        self.step(data.draw(pulls(self._now()), label="command"))

    @precondition(_takes("pull"))
    @precondition(_stands(lambda standing, self: standing.last_pull))
    @rule(data=st.data())
    def pulls_on(self, data: st.DataObject) -> None:
        self.step(data.draw(following_pulls(self._now()), label="command"))

    @precondition(_takes("narrow"))
    @precondition(_stands(lambda standing, self: standing.made and any(standing.narrower(it, self.filters) for it in standing.filters)))
    @rule(data=st.data())
    def narrows_one(self, data: st.DataObject) -> None:
        self.step(data.draw(narrowings(self._now(), self.filters), label="command"))

    @precondition(_takes("refilter"))
    @precondition(_stands(lambda standing, self: standing.made))
    @rule(data=st.data())
    def refilters_one(self, data: st.DataObject) -> None:
        self.step(data.draw(refilterings(self._now(), self.filters), label="command"))

    @precondition(lambda self: self._has_nothing_to_do())
    @rule()
    def rests(self) -> None:
        """No command is left that the engine has and the fleet can take: of engines without pulls."""

    def _has_nothing_to_do(self) -> bool:
        standing = self._now()
        has = {name: _has(self, name) for name in ("new", "edit", "remove", "pull", "refilter")}
        makes_or_moves = has["new"] and standing.made < self.pictures or (has["pull"] or has["refilter"]) and standing.made > 0
        return not makes_or_moves and not (standing.held_by() and (has["edit"] or has["remove"]))

    # What is compared.

    def _now(self) -> Standing:
        assert self.standing is not None
        return self.standing

    def step(self, command: Change) -> None:
        """Gives a command to both, and compares them."""
        name = type(command).__name__.lower()
        if not _has(self, name):
            raise _unwritten(self, COMMANDS[name])
        report = self._now().run(command)
        try:
            answer = self._does(command)
        except Exception as error:
            if type(error).__module__.startswith("hypothesis"):
                raise
            raise Difference(self._now(), "the last command", f"raised {error!r}", report.text.rstrip("\n")) from error
        if answer is not None and answer != report.answer:
            raise Difference(self._now(), "the report", answer, report.answer)
        self._compare_all()

    def _does(self, command: Change) -> object:
        match command:
            case New(device, picture, record):
                return self.new(device, picture, record)
            case Edit(device, picture, record):
                return self.edit(device, picture, record)
            case Remove(device, picture):
                return self.remove(device, picture)
            case Pull(target, source):
                return self.pull(target, source)
            case Narrow(device, filter):
                return self.narrow(device, filter)
            case Refilter(device, filter):
                return self.refilter(device, filter)

    def _compare_all(self) -> None:
        for name, held in self._now().held.items():
            judged = list(self.views(name, held))
            own = list(self.holds(name))
            if _counted("`holds`", own) != _counted("`view` or `views`", judged):
                raise Difference(self._now(), f"{name} holds", sorted(map(str, own)), sorted(map(str, judged)))

    def teardown(self) -> None:
        if self.standing is not None:
            self.standing.fleet.close()


# Finding and shrinking


def replayed(machine: type[JudgedMachine], declared: Mapping[str, Filter], given: Sequence[Change]) -> Difference | None:
    """Runs these commands by a machine, without those that the fleet can't take as it stands then.

    None is a run without a difference, or one that a method of the machine gives up by `hypothesis.assume`.
    """
    one = machine()
    try:
        one.begin(declared)
        for it in given:
            if one._now().takes(it):
                one.step(it)
    except Difference as found:
        return found
    except UnsatisfiedAssumption:
        return None
    finally:
        one.teardown()
    return None


def read_run(script: str) -> tuple[dict[str, Filter], list[Change]]:
    """Reads a script as a `Difference` prints it: devices, then commands, for `replayed`. Spaces before a line don't matter."""
    declared: dict[str, Filter] = {}
    given: list[Change] = []
    for line in filter(None, (it.strip(" ") for it in script.split("\n"))):
        if line.startswith("device "):
            _, name, text = line.split(" ", 2)
            declared[name] = Filter.read(text)
        else:
            given.append(read_command(line))
    return declared, given


def _fewer(given: Sequence[Change]) -> Iterable[list[Change]]:
    """The commands with one left out, and with two, the last ones first."""
    places = range(len(given) - 1, -1, -1)
    yield from ([*given[:it], *given[it + 1 :]] for it in places)
    yield from ([it for at, it in enumerate(given) if at not in (one, two)] for one in places for two in range(one - 1, -1, -1))


def _plainer_record(record: Record) -> Iterable[Record]:
    yield from (record._replace(words=()), record._replace(day=DAYS[0]))
    yield from (record._replace(rating=it) for it in range(record.rating))


def _plainer(declared: Mapping[str, Filter], given: Sequence[Change], pool: Sequence[Filter]) -> Iterable[tuple[dict[str, Filter], list[Change]]]:
    """The same with a plainer filter, or a plainer record."""
    for name, own in declared.items():
        yield from (({**declared, name: it}, list(given)) for it in pool[: pool.index(own)])
    for at, command in enumerate(given):
        others: Iterable[Change] = ()
        if isinstance(command, (New, Edit)):
            others = [replace(command, record=it) for it in _plainer_record(command.record) if it != command.record]
        elif isinstance(command, (Narrow, Refilter)) and command.filter in pool:
            others = [replace(command, filter=it) for it in pool[: pool.index(command.filter)]]
        yield from ((dict(declared), [*given[:at], it, *given[at + 1 :]]) for it in others)


def _merged(declared: Mapping[str, Filter], given: Sequence[Change]) -> Iterable[tuple[dict[str, Filter], list[Change]]]:
    """The same with a device less, another one in its place."""
    for gone in declared:
        left = {name: it for name, it in declared.items() if name != gone}
        for other in left:
            moved = [_named(it, {**dict(zip(left, left)), gone: other}) for it in given]
            yield left, [it for it in moved if not (isinstance(it, Pull) and it.target == it.source)]


def _narrowed(declared: Mapping[str, Filter], given: Sequence[Change]) -> Iterable[tuple[dict[str, Filter], list[Change]]]:
    """The same with a device that has from the beginning what it is narrowed to."""
    for at, it in enumerate(given):
        if isinstance(it, (Narrow, Refilter)):
            yield {**declared, it.device: it.filter}, [*given[:at], *given[at + 1 :]]


def _redirected(declared: Mapping[str, Filter], given: Sequence[Change]) -> Iterable[tuple[dict[str, Filter], list[Change]]]:
    """The same with a command less, and another pull in the place of one."""
    every = [Pull(target, source) for target in declared for source in declared if target != source]
    for at, it in enumerate(given):
        for other in every if isinstance(it, Pull) else ():
            changed = [*given[:at], other, *given[at + 1 :]]
            yield from ((dict(declared), [*changed[:gone], *changed[gone + 1 :]]) for gone in range(len(given)) if gone != at)


def _named(command: Change, names: Mapping[str, str]) -> Change:
    if isinstance(command, Pull):
        return Pull(names[command.target], names[command.source])
    return replace(command, device=names[command.device])


def _renamed(declared: Mapping[str, Filter], given: Sequence[Change]) -> tuple[dict[str, Filter], list[Change]]:
    """The same with the first names, and the pictures counted from 1."""
    names = dict(zip(declared, NAMES))
    numbers: dict[int, int] = {}
    renamed: list[Change] = []
    for command in given:
        if isinstance(command, (New, Edit, Remove)):
            command = replace(command, picture=numbers.setdefault(command.picture, len(numbers) + 1))
        renamed.append(_named(command, names))
    return {names[name]: it for name, it in declared.items()}, renamed


def _names(command: Change) -> set[str]:
    return {command.target, command.source} if isinstance(command, Pull) else {command.device}


def shrunk(machine: type[JudgedMachine], found: Difference) -> Difference:
    """The difference by fewer and plainer lines: with devices and commands left out, and plainer filters and records."""
    goes_on = True
    while goes_on:
        goes_on = False
        declared, given = found.declared, found.given
        tried = [({name: it for name, it in declared.items() if name != one}, [it for it in given if one not in _names(it)]) for one in declared]
        for fewer, commands in chain(
            tried if len(declared) > 1 else (),
            ((dict(declared), it) for it in _fewer(given)),
            _merged(declared, given) if len(declared) > machine.least_devices else (),
            _narrowed(declared, given),
            _plainer(declared, given, list(machine.filters)),
            _redirected(declared, given) if len(given) <= FEW else (),
        ):
            other = replayed(machine, fewer, commands)
            if other is not None:
                found, goes_on = other, True
                break
    return replayed(machine, *_renamed(found.declared, found.given)) or found


def difference(machine: type[JudgedMachine], *, runs: int = 1000, steps: int = 15, seed: int | None = None) -> Difference | None:
    """Tests a machine on so many runs of at most so many steps, and gives the first difference, shrunk, or None.

    With a seed it is the same each time.
    """
    tested = type(machine.__name__, (machine,), {})
    if seed is not None:
        tested = with_seed(seed)(tested)
    how = settings(
        max_examples=runs, stateful_step_count=steps, deadline=None, database=None, print_blob=False, report_multiple_bugs=False,
        suppress_health_check=list(HealthCheck), phases=[Phase.generate],
    )
    test: Callable[..., None] = run_state_machine_as_test
    try:
        test(tested, settings=how)
    except Difference as found:
        return shrunk(machine, found)
    return None
