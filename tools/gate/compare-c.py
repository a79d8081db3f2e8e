#!/usr/bin/env python3
"""Compares what the shared library says of scripts with what the program says of them: status and text, to the byte.

    tools/gate/compare-c.py LIBRARY PROGRAM EXAMPLES

The scripts are the examples, a script of the greatest size with as many commands as a script may have, which is also given to
a session, one a byte larger, and 10,000 drawn ones of up to 80 commands, of which every fifth is given a line with a fault, a
further byte or declarations above the limit. Among what is told of these have to be each report, each answer and each fault
of a text, and a tenth each of the pulls has to take, be handed, notice, drop and learn something. The last line is
'N passed, M failed'.
"""
import os
import ctypes
import glob
import random
import re
import subprocess
import sys

sys.path.insert(0, f"{os.path.dirname(os.path.dirname(os.path.abspath(__file__)))}/lib")
from drawn_scripts import Pulls, drawn

LIBRARY, PROGRAM, EXAMPLES = ctypes.CDLL(sys.argv[1]), sys.argv[2], sys.argv[3]
LIBRARY.photofleet_plain.argtypes = [ctypes.c_char_p, ctypes.c_size_t, ctypes.c_char_p, ctypes.c_size_t, ctypes.POINTER(ctypes.c_size_t)]
LIBRARY.photofleet_plain.restype = ctypes.c_uint8
LIMIT = 8_388_608
COMMANDS = 100_000
DONE, TOO_SMALL = 0, 5
SCRIPTS = 10_000


class Session(ctypes.Structure):
    """A session of the library, which begins closed."""
    _fields_ = [("at", ctypes.c_void_p), ("is_open", ctypes.c_bool)]


for name in ("open", "give", "ask"):
    getattr(LIBRARY, f"photofleet_{name}").argtypes = [ctypes.POINTER(Session), *LIBRARY.photofleet_plain.argtypes]
LIBRARY.photofleet_close.argtypes = [ctypes.POINTER(Session)]


def called(script):
    """Returns the status and the text of the library's call."""
    written = ctypes.c_size_t(1 << 14)
    while True:
        out = ctypes.create_string_buffer(max(written.value, 1))
        status = LIBRARY.photofleet_plain(script, len(script), out, len(out), ctypes.byref(written))
        if status != TOO_SMALL:
            return status, out.raw[:written.value]


def run(script):
    """Returns the exit status and the text of the program."""
    done = subprocess.run([PROGRAM, "plain", "/dev/stdin"], input=script, capture_output=True, check=False)
    return done.returncode, done.stdout + done.stderr


TOLD = {"made", "list", "narrowed", "refiltered", "pulled", "preview", "conflicts", "knowledge", "knows yes", "knows no", "refused C1 NotHeld",
        "refused C2 NotNarrower"}
REFUSED = {f"F{number}" for number in (*range(3, 18), 19)}


def greatest():
    """A script of the greatest size and with the most commands, behind remarks. No LF stands at its end."""
    last = ["pull hall cam", "list hall", "list cam", "knowledge hall"]
    lines = ["device cam all", "device hall rating >= 3"]
    lines += [f"new cam {k} {k % 6} 2024-05-01 sea" for k in range(1, COMMANDS - len(last) + 1)] + last
    text = "\n".join(lines).encode()
    remarks, rest = divmod(LIMIT - len(text), 1024)
    return (b"#" + b"x" * 1022 + b"\n") * remarks + b"\n" * rest + text


def told_last(script, text):
    """Whether a session that is opened with all lines of a script but the last one tells its report, the last in the text, where
    it is asked for that line and where it is given it."""
    session, written = Session(), ctypes.c_size_t()
    out = ctypes.create_string_buffer(len(text))
    begun, _, last = script.rpartition(b"\n")
    report = text[text.rindex(b"\n%d " % COMMANDS) + 1 :]
    holds = LIBRARY.photofleet_open(session, begun, len(begun), out, len(out), written) == DONE
    for call in (LIBRARY.photofleet_ask, LIBRARY.photofleet_give):
        holds &= call(session, last, len(last), out, len(out), written) == DONE and out.raw[: written.value] == report
    return holds and LIBRARY.photofleet_close(session) == DONE


passed = failed = 0


def tell(name, holds):
    global passed, failed
    if holds:
        passed += 1
    else:
        failed += 1
        print(f"{name}: NOT AS EXPECTED", flush=True)


for path in sorted(glob.glob(f"{EXAMPLES}/*.script")):
    with open(path, "rb") as file, open(path.removesuffix("script") + "expected", "rb") as expected:
        tell(path, called(file.read()) == (0, expected.read()))
large = greatest()
answer = called(large)
tell("a script of 8,388,608 bytes with 100,000 commands", len(large) == LIMIT and answer[0] == DONE and answer == run(large))
tell("its last line, given to a session", answer[0] == DONE and told_last(large, answer[1]))
tell("a byte more", called(large + b"x") == run(large + b"x") == (3, b"script fault: F2 TooLarge\n"))

told, refused, others, pulls = set(), {}, 0, Pulls()
for seed in range(SCRIPTS):
    script = drawn(random.Random(seed))
    status, text = answer = called(script)
    pulls.add(text)
    if answer != run(script):
        others += 1
        print(f"the drawn script {seed}: {script!r}", flush=True)
    if status == 0:
        told |= {found.decode() for found in re.findall(rb"(?m)^\d+ (refused C\d \w+|knows \w+|\w+)", text)}
    else:
        fault = re.search(rb"F\d+", text)[0].decode()
        refused[fault] = refused.get(fault, 0) + 1
print(f"{SCRIPTS:,} drawn scripts, {sum(refused.values()):,} of them refused: "
      + ", ".join(f"{refused[fault]} by {fault}" for fault in sorted(refused, key=lambda fault: int(fault[1:]))))
print(pulls)
tell("the counts of these pulls", pulls.is_varied())
tell(f"{others} drawn scripts", others == 0)
tell(f"reports and answers of drawn scripts ({', '.join(TOLD ^ told)})", told == TOLD)
tell(f"faults of drawn scripts ({', '.join(REFUSED ^ set(refused))})", set(refused) == REFUSED)
print(f"{passed} passed, {failed} failed")
sys.exit(failed != 0)
