"""What the measuring scripts share: where the program stands, what a run takes and writes, and rows of tables."""
import ctypes
import hashlib
import os
import re
import subprocess
import sys
import time

TOP = os.path.dirname(os.path.dirname(os.path.dirname(os.path.abspath(__file__))))
PROGRAM = f"{TOP}/crates/photofleet/out/photofleet"
ADOPTS_ORPHANS = 36  # PR_SET_CHILD_SUBREAPER of Linux


def use_of(words, source=os.devnull, wanted=0):
    """Runs a command once, and returns its processor seconds, its wall seconds and its peak of memory in MiB.

    It reads `source` as standard input and writes to /dev/null. The script ends where the exit status is another than wanted.
    A peak is never below that of the process which starts the command. So a small shell does that, and ends, and this process
    adopts the command. The start of the shell takes about a millisecond of the wall seconds.
    """
    ctypes.CDLL(None).prctl(ADOPTS_ORPHANS, 1)
    begin = time.monotonic()
    shell = os.posix_spawn("/bin/sh", ["sh", "-c", '"$@" < "$0" > /dev/null 2>&1 &', source, *words], os.environ)
    os.waitpid(shell, 0)
    _, status, used = os.wait4(-1, 0)
    wall = time.monotonic() - begin
    if os.waitstatus_to_exitcode(status) != wanted:
        sys.exit(f"{' '.join(words[:4])}: status {os.waitstatus_to_exitcode(status)}")
    return used.ru_utime + used.ru_stime, wall, used.ru_maxrss / 1024


def least_in_turn(runs, commands, source=os.devnull, wanted=0):
    """Returns the least of each of these over some runs, for each of the commands, which are run in turn."""
    taken = [[use_of(words, source, wanted) for words in commands] for _ in range(runs)]
    return [tuple(map(min, zip(*uses))) for uses in zip(*taken)]


def least_of(runs, words, source=os.devnull, wanted=0):
    """Returns the least of each of these over some runs of one command."""
    return least_in_turn(runs, [words], source, wanted)[0]


def instructions_of(words, source=os.devnull, wanted=0):
    """Returns how many instructions a command takes, by valgrind: the same on any day, whatever else the machine does."""
    counting = ["valgrind", "--tool=cachegrind", "--cache-sim=no", "--cachegrind-out-file=/dev/null", *words]
    with open(source) as standard_input:
        run = subprocess.run(counting, stdin=standard_input, stdout=subprocess.DEVNULL, stderr=subprocess.PIPE)
    counted = re.search(rb"I +refs: +([\d,]+)", run.stderr)
    if run.returncode != wanted or not counted:
        sys.exit(f"{' '.join(words[:4])}: {run.stderr.decode(errors='replace')}")
    return int(counted[1].replace(b",", b""))


def output_of(words):
    """Returns a digest of what a command writes."""
    with subprocess.Popen(words, stdout=subprocess.PIPE) as run:
        return hashlib.file_digest(run.stdout, "sha256").digest()


def ratio(now, before):
    """Returns a cell with a time by an earlier one, or a dash where there is none."""
    return f"{now / before:.1f}" if before else "-"


def print_head(head):
    """Prints the first row of a table, and the line below it."""
    print(head, "|---" * (head.count("|") - 1) + "|", sep="\n", flush=True)
