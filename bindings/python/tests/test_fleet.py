"""Fleets, reports and faults, by the library that the package finds."""
import ctypes
import pathlib
import threading

import pytest

import photofleet
from photofleet import Conflict, Counts, Fragment, Held, Record, Version

FIRST = "device cam all\nnew cam 7 5 2024-05-01 sun,beach\nlist cam\nknowledge cam\nknows cam 7 cam:2\n"
FIRST_TEXT = """1 made cam:1 store
2 list cam store 1 out 0
  store 7 cam:1 rating 5 day 2024-05-01 words beach,sun
3 knowledge cam 1
  * cam:1
4 knows no
"""


def test_a_fleet_is_driven_line_by_line():
    with photofleet.Fleet("device a all\ndevice b rating >= 3") as fleet:
        made = fleet.give("new a 1 5 2024-05-01 sun")
        assert (made.number, made.text, made.version, made.place) == (1, "1 made a:1 store\n", Version("a", 0, 1), "store")
        assert fleet.give("pull b a").counts == Counts(1, 0, 0, 0, True)
        assert fleet.give("remove a 1").place == "out"
        listed = fleet.ask("list a")
        assert listed.store == () and listed.out == (Held("out", 1, Version("a", 0, 2), None),)
        assert fleet.ask("list b").held == (Held("store", 1, Version("a", 0, 1), Record(5, "2024-05-01", ("sun",))),)
        assert fleet.ask("preview b a").counts == Counts(0, 1, 0, 1, True)
        assert fleet.give("edit b 2 5 2024-05-01 -").name == "NotHeld"
        assert fleet.give("narrow b all").code == "C2"


def test_conflicts_and_knowledge_are_values():
    with photofleet.Fleet(["device a all", "device b all"]) as fleet:
        for line in ("new a 1 5 2024-05-01 -", "pull b a", "edit a 1 4 2024-05-01 -", "edit b 1 3 2024-05-01 -", "pull a b"):
            fleet.give(line)
        both = (Version("a", 0, 2), Version("b", 0, 1))
        assert fleet.ask("conflicts a").conflicts == (Conflict(1, both),)
        assert fleet.ask("knowledge a").fragments == (Fragment(None, both),)
        assert fleet.ask("knows b 1 a:2").known is False
        assert fleet.give("narrow a rating >= 4").moved == 1
        assert fleet.give("refilter a none").answer == (0, 2)
        assert fleet.give("new a 2 0 2024-05-01 -").version == Version("a", 1, 1)
        assert str(Version("a", 1, 1)) == "a.1:1" and Version.read("a.1:1") == Version("a", 1, 1)


def test_lines_without_a_report():
    with photofleet.Fleet() as fleet:
        assert [fleet.give(it) for it in ("device a all", "", "# a remark")] == [None, None, None]
        assert fleet.give("list a").number == 1


def test_commands_are_lines():
    with photofleet.Fleet("device a all\ndevice b all") as fleet:
        assert fleet.give(photofleet.New("a", 1, Record(5, words=("sun",)))).text == "1 made a:1 store\n"
        assert fleet.give(photofleet.Edit("a", 1, Record(4))).version.number == 2
        assert fleet.give(photofleet.Pull("b", "a")).counts.taken == 1
        assert fleet.ask(photofleet.List("b")).store[0].record == Record(4)
        assert fleet.ask(photofleet.Knows("b", 1, Version("a", 0, 1))).known
        assert fleet.ask(photofleet.Preview("a", "b")).counts == Counts(0, 0, 0, 0, True)
        assert fleet.ask(photofleet.Conflicts("b")).conflicts == ()
        assert fleet.ask(photofleet.Knowledge("b")).fragments == (Fragment(None, (Version("a", 0, 2),)),)
        assert fleet.give(photofleet.Narrow("b", photofleet.rated(5))).moved == 1
        assert fleet.give(photofleet.Refilter("b", photofleet.rated(2, 4))).answer == (1, 0)
        assert fleet.give(photofleet.Remove("b", 1)).place == "out"


def test_a_question_changes_nothing():
    with photofleet.Fleet("device a all") as fleet:
        assert fleet.ask("new a 1 5 2024-05-01 -").text == fleet.give("new a 1 5 2024-05-01 -").text


def test_a_line_has_no_lf():
    with photofleet.Fleet("device a all") as fleet:
        for call in (fleet.give, fleet.ask):
            for line in ("list a\nlist a", b"list a\n", "\n"):
                with pytest.raises(ValueError):
                    call(line)
        assert fleet.give("list a").number == 1


def test_faults_have_number_line_and_text():
    with photofleet.Fleet("device a all") as fleet:
        fleet.give("list a")
        with pytest.raises(photofleet.ScriptFault) as raised:
            fleet.give("list b")
        fault = raised.value
        assert (fault.number, fault.name, fault.line) == (8, "UnknownDevice", 3)
        assert fault.text == "script fault: line 3: F8 UnknownDevice"
        assert fleet.give("list a").number == 2
    with pytest.raises(photofleet.ScriptFault) as raised:
        photofleet.plain(b"\xff")
    assert (raised.value.number, raised.value.line) == (3, None)
    with pytest.raises(photofleet.ScriptFault):
        photofleet.Fleet("list a")


def test_a_closed_fleet():
    fleet = photofleet.Fleet("device a all")
    fleet.close()
    fleet.close()
    assert not fleet.is_open
    with pytest.raises(photofleet.FleetClosed):
        fleet.give("list a")
    with pytest.raises(photofleet.FleetClosed), fleet:
        pass


def test_a_whole_script():
    assert photofleet.plain(FIRST) == FIRST_TEXT
    reports = photofleet.read_reports(FIRST_TEXT)
    assert [type(it).__name__ for it in reports] == ["Made", "Listed", "Known", "Knowing"]
    assert "".join(it.text for it in reports) == FIRST_TEXT
    assert photofleet.plain(FIRST.splitlines()) == FIRST_TEXT and photofleet.plain("") == "" and photofleet.read_reports("") == ()


def test_texts_that_need_more_room():
    lines = ["device a all"] + [f"new a {it} 5 2024-05-01 {'x' * 60}" for it in range(1, 301)]
    assert len(photofleet.plain([*lines, "list a"])) > 1 << 14
    with photofleet.Fleet(lines) as fleet:
        listed = fleet.give("list a")
        assert len(listed.store) == 300 and len(listed.text) > 1 << 14 and fleet.ask("list a").number == 302


def test_words_with_unusual_characters():
    with photofleet.Fleet("device a all") as fleet:
        fleet.give("new a 1 5 2024-05-01 x\u2028y,\u00a0")
        assert fleet.ask("list a").store[0].record.words == ("x\u2028y", "\u00a0")


def test_four_threads_with_a_fleet_each():
    wrong = []

    def drive(number):
        for _ in range(5):
            with photofleet.Fleet("device a all\ndevice b all") as fleet:
                for it in range(1, 11):
                    made = fleet.give(f"new a {it} {number} 2024-05-01 -")
                    if made.text != f"{it} made a:{it} store\n":
                        wrong.append(made.text)
                if fleet.give("pull b a").counts != Counts(10, 0, 0, 0, True):
                    wrong.append(number)

    threads = [threading.Thread(target=drive, args=(it,)) for it in range(4)]
    for it in threads:
        it.start()
    for it in threads:
        it.join()
    assert not wrong


def test_threads_that_share_a_fleet_wait():
    with photofleet.Fleet("device a all") as fleet:
        pictures = iter(range(1, 1000))
        threads = [threading.Thread(target=lambda: [fleet.give(f"new a {next(pictures)} 5 2024-05-01 -") for _ in range(10)]) for _ in range(4)]
        for it in threads:
            it.start()
        for it in threads:
            it.join()
        assert len(fleet.ask("list a").store) == 40


def test_where_the_library_is_looked_for(monkeypatch, tmp_path):
    found = photofleet.find_library()
    assert photofleet.plain(FIRST, library=found) == FIRST_TEXT
    with photofleet.Fleet(library=photofleet.load(pathlib.Path(found))) as fleet:
        assert fleet.is_open
    monkeypatch.setenv("PHOTOFLEET_LIBRARY", found)
    assert photofleet.find_library() == found
    with pytest.raises(photofleet.LibraryNotFound, match="static"):
        photofleet.load(tmp_path / "libphotofleet.a")
    (tmp_path / "other.so").write_bytes(b"none")
    with pytest.raises(photofleet.LibraryNotFound):
        photofleet.load(tmp_path / "other.so")
    monkeypatch.delenv("PHOTOFLEET_LIBRARY")
    monkeypatch.setenv("PATH", "/nowhere")
    monkeypatch.setattr(photofleet.library, "_of_package", lambda: None)
    monkeypatch.setattr(ctypes.util, "find_library", lambda name: None)
    with pytest.raises(photofleet.LibraryNotFound, match="PHOTOFLEET_LIBRARY"):
        photofleet.find_library()


def test_the_package_is_typed():
    assert pathlib.Path(photofleet.__file__).with_name("py.typed").is_file()
