"""Makes each call of the Python package, and four threads of them at once: what tools/gate/check-bindings runs under valgrind."""
import threading

import photofleet

DEVICES = "device a all\ndevice b rating >= 3"
LINES = ["new a 1 5 2024-05-01 sea,sun", "pull b a", "edit a 1 2 2024-05-01 -", "edit b 1 4 2024-05-01 -", "pull a b", "remove a 1", "pull b a",
         "narrow b rating >= 4", "refilter b all", "pull b a"]
QUESTIONS = ["list a", "list b", "conflicts a", "knowledge b", "knows b 1 a:1", "preview b a", "new a 2 1 2024-05-01 -"]
wrong = []


def drive():
    with photofleet.Fleet(DEVICES) as fleet:
        said = ""
        for line in LINES:
            said += fleet.give(line).text
            for it in QUESTIONS:
                fleet.ask(it)
            for refused in ("list c", "new a 1 5 2024-05-01 -", "\udcff".encode("utf-8", "surrogateescape")):
                try:
                    fleet.give(refused)
                    wrong.append(refused)
                except photofleet.ScriptFault as fault:
                    assert fault.number in (3, 8, 16), fault
        if said != photofleet.plain([*DEVICES.split("\n"), *LINES]):
            wrong.append(said)
    # a text that has no room at first
    many = ["device a all"] + [f"new a {it} 5 2024-05-01 {'x' * 60}" for it in range(1, 201)]
    with photofleet.Fleet(many) as fleet:
        if len(fleet.give("list a").store) != 200:
            wrong.append(many)
    # one that is never closed by its user
    photofleet.Fleet(DEVICES).give("list a")


drive()
threads = [threading.Thread(target=drive) for _ in range(4)]
for it in threads:
    it.start()
for it in threads:
    it.join()
assert not wrong, wrong
print("done")
