"""The strategies and the state machine, and filters as values against the judge."""
from collections import Counter
from itertools import chain, combinations

import pytest
from hypothesis import HealthCheck, Phase, assume, given, settings, strategies as st

import photofleet
from photofleet import ALL, NONE, Alternative, Edit, Filter, Narrow, New, Pull, Record, Refilter, Remove, rated, read_command
from photofleet.testing import FILTERS, JudgedMachine, Standing, devices, difference, filters, read_run, records, replayed, runs

STEADY = settings(deadline=None, database=None, derandomize=True, max_examples=50, suppress_health_check=list(HealthCheck), print_blob=False)

ranges = st.tuples(st.integers(0, 5), st.integers(0, 5)).map(lambda it: (min(it), max(it)))
days = st.lists(st.sampled_from(["0000-01-01", "2024-05-01", "2024-05-02", "9999-12-31"]), min_size=2, max_size=2).map(lambda it: tuple(sorted(it)))
words = st.sets(st.sampled_from(["sea", "sun", "and"]), max_size=2).map(frozenset)
alternatives = st.builds(Alternative, ranges, days, words, words).filter(Alternative.is_possible)
wide = st.lists(alternatives, max_size=3).map(lambda it: Filter(tuple(it)))


@STEADY
@given(wide, records(["sea", "sun", "and"]))
def test_a_filter_selects_what_the_judge_says(drawn, record):
    with photofleet.Fleet([f"device a {drawn}"]) as fleet:
        assert (fleet.give(New("a", 1, record)).place == "store") == drawn.selects(record)


@STEADY
@given(wide, wide)
def test_a_filter_covers_what_the_judge_says(source, target):
    with photofleet.Fleet([f"device a {source}", f"device b {target}"]) as fleet:
        assert fleet.ask("preview b a").counts.learned == source.covers(target)


@STEADY
@given(st.one_of(wide, filters()))
def test_a_filter_is_read(drawn):
    assert Filter.read(str(drawn)) == drawn


def test_filters_that_are_read():
    assert Filter.read("keyword and and rating <= 3 and rating >= 2 or not keyword or") == Filter(
        (Alternative((2, 3), required=frozenset(["and"])), Alternative(forbidden=frozenset(["or"])))
    )
    for text in ("", "rating > 3", "(all)", "not all", "all or", "all all", "keyword", "all and none", "rating >= 4 and rating <= 3"):
        with pytest.raises(ValueError):
            Filter.read(text)


def test_the_plain_filters():
    assert (str(ALL), str(NONE), str(rated(3)), str(rated(2, 2))) == ("all", "none", "rating >= 3", "rating = 2")
    assert not ALL.selects(None) and ALL.covers(NONE) and not NONE.covers(ALL)
    with pytest.raises(ValueError):
        rated(4, 3)


def test_words_are_compared_in_form_c():
    composed, apart = "caf\u00e9", "cafe\u0301"
    for wanted, given_ in ((composed, apart), (apart, composed)):
        drawn, record = rated(required=[wanted]), Record(5, words=(given_,))
        assert drawn.selects(record) and drawn.alternatives[0].selects(record) and not rated(forbidden=[wanted]).selects(record)
        assert rated(required=[given_]).covers(drawn) and Filter.read(f"keyword {given_}") == drawn
        with photofleet.Fleet([f"device a keyword {wanted}"]) as fleet:
            assert fleet.give(New("a", 1, record)).place == "store"
    with pytest.raises(ValueError):
        rated(required=[composed], forbidden=[apart])


@STEADY
@given(st.data())
def test_each_command_can_be_taken_as_the_fleet_stands(data):
    declared, run = data.draw(runs(most=12))
    with photofleet.Fleet([f"device {name} {it}" for name, it in declared.items()]) as fleet:
        for it in run:
            assert not isinstance(fleet.give(it), photofleet.Refused)


def events(declared, run):
    """What happens in a run, each once."""
    found, standing = set(), Standing(declared)
    with standing.fleet:
        for command in run:
            back = isinstance(command, Pull) and Pull(command.source, command.target) in standing.given
            report = standing.run(command)
            if isinstance(report, photofleet.Pulled):
                found |= {it for it in ("taken", "handed", "notices", "dropped") if getattr(report.counts, it)}
                found |= {"pulled back"} if back else set()
            found |= {"removed"} if isinstance(command, Remove) else set()
            for held in standing.held.values():
                found |= {"conflict"} if len(held) > len({it.picture for it in held}) else set()
                found |= {"waiting"} if any(it.place == "out" for it in held) else set()
    return found


class Watched(JudgedMachine):
    """It has every command and compares nothing, so its runs go on to their ends."""

    drawn = []

    def open(self, devices):
        pass

    def new(self, device, picture, record):
        pass

    def narrow(self, device, filter):
        pass

    def remove(self, device, picture):
        pass

    def pull(self, target, source):
        pass

    edit, refilter = new, narrow

    def holds(self, device):
        return []

    def view(self, held):
        return None

    def teardown(self):
        self.drawn.append((self.standing.declared, self.standing.given))
        super().teardown()


def runs_of_strategies():
    drawn = []
    settings(STEADY, max_examples=RUNS, phases=[Phase.generate])(given(runs(most=15))(lambda it: drawn.append(it)))()
    return drawn


def runs_of_a_machine():
    Watched.drawn.clear()
    assert difference(Watched, runs=RUNS, steps=15, seed=0) is None
    # (a run that Hypothesis gives up while it is drawn has no command)
    return [it for it in Watched.drawn if it[1]]


RUNS = 100
# Of a hundred runs, in how many this has to happen at least: some half of what was counted
LEAST = {"waiting": 40, "removed": 30, "handed": 30, "pulled back": 25, "taken": 20, "dropped": 2, "conflict": 4}


@pytest.mark.parametrize("draw", [runs_of_strategies, runs_of_a_machine])
def test_much_happens_in_the_runs(draw):
    """It counts what happens in a hundred runs of one seed. That errors are found by them is seen by examples/judge alone."""
    drawn = draw()
    seen = Counter(chain.from_iterable(events(*it) for it in drawn))
    assert len(drawn) >= RUNS * 9 // 10 and all(seen[what] >= least for what, least in LEAST.items()), seen


def test_filters_overlap():
    drawn = set()
    settings(STEADY, max_examples=100)(given(filters())(lambda it: drawn.add(it)))()
    assert len(drawn) > 4 and drawn <= set(FILTERS)
    some = [Record(rating, words=said) for rating in range(6) for said in ((), ("sea",), ("sun",), ("sea", "sun"))]
    pairs = list(combinations(FILTERS, 2))
    assert sum(any(one.selects(it) and other.selects(it) for it in some) for one, other in pairs) == len(pairs) - 1
    assert all(any(one.selects(it) != other.selects(it) for it in some) for one, other in pairs)


class Keeps(JudgedMachine):
    """An engine without pulls: each device holds what it made."""

    drops_at = 99

    def open(self, devices):
        self.own = {name: {} for name in devices}

    def new(self, device, picture, record):
        self.own[device][picture] = record

    def edit(self, device, picture, record):
        self.own[device][picture] = record
        if record.rating >= self.drops_at:
            del self.own[device][picture]

    def view(self, held):
        return held.picture, held.record

    def holds(self, device):
        return self.own[device].items()


class CountsPictures(Keeps):
    """It is compared by how many pictures a device holds."""

    def views(self, device, held):
        return [len({it.picture for it in held})]

    def holds(self, device):
        return [len(self.own[device])]


class CountsFewer(CountsPictures):
    drops_at = 4


class Drops(Keeps):
    drops_at = 4


class Raises(Keeps):
    def edit(self, device, picture, record):
        raise KeyError(picture)


class Miscounts(Keeps):
    def new(self, device, picture, record):
        super().new(device, picture, record)
        return photofleet.Version(device, 0, 1)


def test_an_engine_that_does_what_the_judge_does():
    assert difference(Keeps, runs=30, steps=8, seed=0) is None


def test_what_is_compared_may_depend_on_all_that_a_device_holds():
    assert difference(CountsPictures, runs=30, steps=8, seed=0) is None
    found = difference(CountsFewer, runs=200, steps=10, seed=0)
    assert (found.engine, found.judge) == (["0"], ["1"])


def test_an_engine_that_differs_is_found_and_shrunk():
    found = difference(Drops, runs=200, steps=10, seed=0)
    assert found.lines == ["device a all", "new a 1 0 2024-05-01 -", "edit a 1 4 2024-05-01 -"]
    assert (found.about, found.engine, found.judge) == ("a holds", [], [str((1, Record(4)))])
    assert "    edit a 1 4 2024-05-01 -" in str(found)
    assert difference(Drops, runs=200, steps=10, seed=0).lines == found.lines


def test_a_report_that_differs_is_found():
    found = difference(Miscounts, runs=200, steps=10, seed=0)
    assert found.lines == ["device a all", "new a 1 0 2024-05-01 -", "new a 2 0 2024-05-01 -"]
    assert (found.engine, found.judge) == (photofleet.Version("a", 0, 1), photofleet.Version("a", 0, 2))


def test_an_error_of_the_engine_is_a_difference():
    found = difference(Raises, runs=200, steps=10, seed=0)
    assert found.lines == ["device a all", "new a 1 0 2024-05-01 -", "edit a 1 0 2024-05-01 -"]
    assert (found.engine, found.judge) == ("raised KeyError(1)", "2 made a:2 store") and isinstance(found.__cause__, KeyError)


class EditsRemoved(Keeps):
    """It has no removals, so that it raises where it edits what was removed."""

    def edit(self, device, picture, record):
        assert self.own[device][picture] is not None
        super().edit(device, picture, record)

    def remove(self, device, picture):
        self.own[device][picture] = None


class StoresAlone(Keeps):
    """It has no outs, so that it raises where it edits or removes what its filter left out."""

    edits_waiting = False

    def open(self, devices):
        super().open(devices)
        self.filters_of = devices

    def new(self, device, picture, record):
        if self.filters_of[device].selects(record):
            self.own[device][picture] = record

    def edit(self, device, picture, record):
        del self.own[device][picture]
        self.new(device, picture, record)

    def remove(self, device, picture):
        del self.own[device][picture]

    def view(self, held):
        return super().view(held) if held.place == "store" else None


class EditsWaiting(StoresAlone):
    edits_waiting = True


def test_what_waits_is_edited_where_it_is_wanted():
    assert difference(StoresAlone, runs=30, steps=8, seed=0) is None
    found = difference(EditsWaiting, runs=200, steps=10, seed=0)
    assert len(found.lines) == 3 and found.engine == "raised KeyError(1)"
    declared, run = {"a": rated(4)}, [New("a", 1, Record(0)), Edit("a", 1, Record(5)), Remove("a", 1)]
    assert replayed(StoresAlone, declared, run) is None and replayed(EditsWaiting, declared, run).given == run[:2]


class EditsAll(EditsRemoved):
    edits_removed = True


def test_what_was_removed_is_edited_where_it_is_wanted():
    assert difference(EditsRemoved, runs=50, steps=10, seed=0) is None
    assert [it.split()[0] for it in difference(EditsAll, runs=200, steps=10, seed=0).lines] == ["device", "new", "remove", "edit"]


def test_a_run_is_replayed():
    run = [New("a", 1, Record(0)), Edit("b", 1, Record(5)), Edit("a", 1, Record(5))]
    assert replayed(Keeps, {"a": ALL, "b": ALL}, run) is None
    assert replayed(Drops, {"a": ALL}, run).lines[-1] == "edit a 1 5 2024-05-01 -"


def test_a_printed_run_is_read_and_replayed():
    found = difference(Drops, runs=200, steps=10, seed=0)
    script = "\n".join(f"    {it}" for it in found.lines) + "\n"
    assert read_run(script) == (found.declared, found.given)
    assert replayed(Drops, *read_run(script)).lines == found.lines and replayed(Keeps, *read_run(script)) is None


names, numbers = st.sampled_from(["a", "b"]), st.integers(1, 9)
changes = st.one_of(
    *(st.builds(it, names, numbers, records()) for it in (New, Edit)), st.builds(Remove, names, numbers), st.builds(Pull, names, names),
    *(st.builds(it, names, wide) for it in (Narrow, Refilter)),
)


@STEADY
@given(devices(1, 2, [ALL, NONE, rated(4)]), st.lists(changes, max_size=4))
def test_each_command_is_read(declared, run):
    assert [read_command(str(it)) for it in run] == run
    assert read_run("\n".join([*(f"device {name} {it}" for name, it in declared.items()), *map(str, run)])) == (declared, run)


def test_what_is_no_command_is_not_read():
    for line in ("", "list a", "new a 1 5 2024-05-01", "remove a", "narrow a", "# a remark", "new a one 5 2024-05-01 -"):
        with pytest.raises(ValueError):
            read_command(line)


class Assumes(Drops):
    """It gives a run up where a picture has a rating of 3."""

    def new(self, device, picture, record):
        assume(record.rating != 3)
        super().new(device, picture, record)


def test_a_run_may_be_given_up():
    assert replayed(Assumes, {"a": ALL}, [New("a", 1, Record(3)), Edit("a", 1, Record(5))]) is None
    assert replayed(Assumes, {"a": ALL}, [New("a", 1, Record(2)), Edit("a", 1, Record(5))]).engine == []
    assert difference(Assumes, runs=200, steps=10, seed=0).lines == ["device a all", "new a 1 0 2024-05-01 -", "edit a 1 4 2024-05-01 -"]


class HasNoCommand(JudgedMachine):
    """Its methods of commands have other names."""

    def open(self, devices):
        pass

    def holds(self, device):
        return []

    def create(self, device, picture, record):
        pass


class DoesNotOpen(Keeps):
    open = JudgedMachine.open


class DoesNotTell(Keeps):
    holds = JudgedMachine.holds


@pytest.mark.parametrize("machine, named", [
    (HasNoCommand, ["HasNoCommand", "new(device, picture, record)", "pull(target, source)", "refilter(device, filter)"]),
    (DoesNotOpen, ["DoesNotOpen", "open(devices)"]),
    (DoesNotTell, ["DoesNotTell", "holds(device)"]),
])
def test_a_method_that_is_not_written_is_named(machine, named):
    with pytest.raises(NotImplementedError) as raised:
        difference(machine, runs=5, seed=0)
    assert all(it in str(raised.value) for it in named)


def test_a_command_that_the_engine_has_not_is_named():
    with pytest.raises(NotImplementedError, match="pull"):
        replayed(Keeps, {"a": ALL, "b": ALL}, [Pull("a", "b")])


class GivesLists(Keeps):
    def holds(self, device):
        return map(list, super().holds(device))


class ViewsLists(Keeps):
    def view(self, held):
        return list(super().view(held))


class TellsTwice(Keeps):
    def holds(self, device):
        return list(super().holds(device)) * 2


def test_what_is_compared_is_hashable_and_counted():
    run = [New("a", 1, Record(0))]
    for machine, method in ((GivesLists, "`holds`"), (ViewsLists, "`view`")):
        with pytest.raises(TypeError, match=f"{method}.* hashable"):
            replayed(machine, {"a": ALL}, run)
    found = replayed(TellsTwice, {"a": ALL}, run)
    assert (len(found.engine), len(found.judge)) == (2, 1)


@STEADY
@given(devices(1, 2))
def test_devices_are_named_in_order(drawn):
    assert list(drawn) == ["a", "b"][: len(drawn)] and drawn


class TestKeeps(Keeps.TestCase):
    settings = settings(STEADY, max_examples=20, stateful_step_count=8)
