"""The test of judge.rs in few lines, by whole scripts: python3 examples/c/judge.py out/c/libphotofleet.so"""
import collections, ctypes, itertools, random, sys

LIBRARY = ctypes.CDLL(sys.argv[1])
SCRIPT = "device a rating <= 3\ndevice b rating >= 2\n{}\nlist a\nlist b"
KEEPS, OTHER = {"a": range(0, 4), "b": range(2, 6)}, {"a": "b", "b": "a"}
Version = collections.namedtuple("Version", "picture text rating before")

def judged(run):
    """What the proved engine lists of each device in the end."""
    size, script, out = ctypes.c_size_t, SCRIPT.format("\n".join(run)).encode(), ctypes.create_string_buffer(1 << 16)
    status = LIBRARY.photofleet_plain(script, size(len(script)), out, size(len(out)), ctypes.byref(size()))
    assert status == 0, out.value
    return [{line for line in report.split("\n") if line.startswith("  ")} for report in out.value.decode().split(" list ")[1:]]

def listed(run, forgetful):
    """The same by an engine that keeps what each device knows: each rating is wanted by one of them, so what they hold follows."""
    known, numbers = {name: set() for name in KEEPS}, {name: itertools.count(1) for name in KEEPS}
    def held(name):
        current = known[name] - set().union(*(v.before for v in known[name]))
        return {v for v in current if v.rating in KEEPS[name] or v not in known[OTHER[name]]}
    for word, name, picture, *record in map(str.split, run):
        if word == "pull":
            told = {v for v in held(OTHER[name]) - known[name] if v.rating in KEEPS[name] or v.before & held(name) and not forgetful}
            known[name] |= told.union(*(v.before for v in told))
        elif word == "new" or any(v.picture == picture for v in held(name)):
            text = f"{picture} {name}:{next(numbers[name])} rating {record[0]} day 2024-05-01 words -"
            known[name].add(Version(picture, text, int(record[0]), frozenset(v for v in known[name] if v.picture == picture)))
    return [{f"  {'store' if v.rating in KEEPS[name] else 'out'} {v.text}" for v in held(name)} for name in KEEPS]

def drawn(draws):
    kinds = ["new {0} {2} {4} 2024-05-01 -", "edit {0} {3} {4} 2024-05-01 -", "pull {0} {1}", "pull {0} {1}"]
    return [draws.choice(kinds).format(*draws.sample("ab", 2), new, draws.randint(1, 9), draws.randrange(6)) for new in range(1, 21)]

for forgetful in (False, True):
    fails = lambda run: judged(run) != listed(run, forgetful)
    run = next(filter(fails, map(drawn, map(random.Random, range(2000)))), None)
    while run and (fewer := next(filter(fails, (run[:at] + run[at + 1:] for at in range(len(run)))), None)):
        run = fewer
    print("2000 runs are alike" if run is None else SCRIPT.format("\n".join(run)))
