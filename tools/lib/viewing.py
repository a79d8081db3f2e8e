"""What the checks of `fleet_view` and `fleet_shell` share: a counter, runs of a program, and scripts that are drawn."""
import os
import subprocess
import sys

import measuring

TOP = measuring.TOP
VIEWS = f"{TOP}/examples/views"
FILTERS = ["all", "none", "rating >= 3", "rating <= 3", "rating >= 2 and not keyword private", "keyword beach or rating = 5"]


class Counter:
    """Counts what passed, and tells what didn't."""

    def __init__(self):
        self.passed = self.failed = 0

    def tell(self, name, is_right):
        if is_right:
            self.passed += 1
        else:
            self.failed += 1
            print(f"{name}: NOT AS EXPECTED", flush=True)


def output(program, *words, status=0):
    """Returns what the program writes; nothing where it ends with another status."""
    run = subprocess.run([*program, *words], capture_output=True)
    return run.stdout.decode() if run.returncode == status else None


def proved(crate):
    """Returns the built program of a crate, which is proved first where it has to be."""
    if subprocess.run([f"{TOP}/tools/build/build-program", crate]).returncode:
        print("0 passed, 1 failed")
        sys.exit(1)
    return [f"{TOP}/crates/{crate}/out/{crate}"]


def refused(program, library, number, words, given=b""):
    """Runs the program with its allocation of that number refused. Returns its status, output, errors, and whether one was."""
    read, write = os.pipe()
    os.dup2(write, 9)
    os.close(write)
    environment = {**os.environ, "REFUSE": str(number), "LD_PRELOAD": library}
    run = subprocess.run([*program, *words], capture_output=True, env=environment, pass_fds=(9,), input=given)
    os.close(9)
    with os.fdopen(read) as file:
        marks = file.read().split("\n")
    return run.returncode, run.stdout, run.stderr, "refused" in marks, [mark for mark in marks if mark.startswith("blocks ")]


def written(path, text):
    """Writes a text to a file, and returns its path."""
    with open(path, "w", newline="") as file:
        file.write(text)
    return path


def draw(rng):
    """Returns the devices with their filters, and the commands of a script."""
    devices = [("d0", "all"), *((f"d{place}", rng.choice(FILTERS)) for place in range(1, rng.randint(2, 6)))]
    commands = []
    for number in range(rng.randint(10, 60)):
        device = rng.choice(devices)[0]
        kind = rng.choice(["new", "edit", "edit", "turn", "turn", "turn", "pull", "pull", "remove", "narrow", "refilter"])
        record = (rng.randint(0, 5), rng.choice(["-", "beach", "private", "beach,private"]))
        if kind == "new":
            commands.append((kind, device, number + 1, record))
        elif kind == "turn":
            # another device pulls a picture, and again when it has been edited into what that device may not be to keep
            pull = ("pull", rng.choice(devices[1:])[0], "d0", None)
            commands += [("new", "d0", number + 1, (5, "beach")), pull, ("edit", "d0", number + 1, (1, "private")), pull]
        elif kind == "edit":
            commands.append((kind, device, rng.randint(1, number + 1), record))
        elif kind == "remove":
            commands.append((kind, device, rng.randint(1, number + 1), None))
        elif kind == "pull":
            commands.append((kind, device, rng.choice([name for name, _ in devices if name != device]), None))
        else:
            commands.append((kind, device, rng.choice(FILTERS), None))
    return devices, commands


def line_of(command):
    kind, device, what, record = command
    if kind in ("new", "edit"):
        return f"{kind} {device} {what} {record[0]} 2024-05-01 {record[1]}"
    return f"{kind} {device} {what}"


def script_of(devices, commands):
    """Returns the text of a script that was drawn."""
    return "\n".join([f"device {name} {selects}" for name, selects in devices] + [line_of(command) for command in commands]) + "\n"


def is_command(line):
    """Whether a line of a script has a command."""
    word = (line.rstrip("\r").split() or ["#"])[0]
    return word != "device" and not word.startswith("#")
