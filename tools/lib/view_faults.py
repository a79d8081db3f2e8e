"""Checks what `fleet_view fault` tells of mistakes, and why `replay` refuses an order."""
import random
import re
import subprocess
import unicodedata

import viewing


def columns(text):
    """Returns each character of a text as often as it takes columns."""
    return "".join(c * (2 if unicodedata.east_asian_width(c) in "WF" else 0 if unicodedata.combining(c) else 1) for c in text)


def marked(told):
    """Returns the text above the carets, '$' where they stand behind the line's end; nothing where there are none."""
    lines = re.search(r"^ +\d+ \| (.*)\n +\| ( *)(\^+)$", told, flags=re.M)
    if not lines:
        return ""
    above, before, carets = lines.groups()
    return columns(above)[len(before):][:len(carets)] or "$"


def rows_of(path):
    """Returns the rows of a table with tabs between the cells."""
    with open(path, newline="") as file:
        return [line.rstrip("\n").split("\t") for line in file if not line.startswith("# ")]


def printed(text):
    """Returns the bytes of a text, as printf writes them by %b."""
    return subprocess.run(["printf", "%b", text], capture_output=True, env={"LC_ALL": "C"}).stdout


def told_of(program, work, script):
    """Returns what 'fault' tells of a script."""
    with open(f"{work}/fault", "wb") as file:
        file.write(printed(script))
    return viewing.output(program, "fault", f"{work}/fault", status=3) or ""


def check_faults(counter, program, work):
    rows, faults = rows_of(f"{viewing.VIEWS}/carets.txt"), rows_of(f"{viewing.TOP}/examples/faults.txt")
    missing = [fault for fault in faults if fault not in [[row[0], row[2]] for row in rows]]
    counter.tell(f"each line of faults.txt, but {missing}", not missing)
    counter.tell("forty mistakes", len(rows) >= len(faults) + 40)
    for fault, under, script in rows:
        told = told_of(program, work, script)
        is_told = told.startswith(f"script fault: {fault}\n") and "\nmend:     " in told
        counter.tell(f"fault {fault} of {script}", is_told and marked(told) == columns(under))
    rows = rows_of(f"{viewing.VIEWS}/told.txt")
    counter.tell("forty mistakes told to the letter", len(rows) >= 40)
    for fault, under, known, mend, script in rows:
        told = told_of(program, work, script)
        wanted = [f"script fault: {fault}", *([f"known:    {known}"] if known else []), f"mend:     {mend}"]
        is_told = [line for line in told.splitlines() if re.match("script fault:|known:|mend:", line)] == wanted
        counter.tell(f"what is told of {script}", is_told and marked(told) == columns(printed(under).decode()))
    no_fault = "no fault: it is a script\n"
    counter.tell("no fault", viewing.output(program, "fault", f"{viewing.TOP}/examples/household.script") == no_fault)
    line = "remark:   in line {} '{}' is one word: words have commas between them\n"
    cr = "remark:   the text is one line, since a carriage return (CR) alone ends none\n"
    for text, remark in (
        ("device a all\nnew a 1 5 2026-07-01 beach;family\n", line.format(2, "beach;family")),
        ("device a keyword sea;sun\n", line.format(1, "sea;sun")),
        ("device a all\n# one; two\nedit a 1 5 2026-07-01 sea,sun;wood,x\n", line.format(3, "sun;wood")),
        ("# a remark\rdevice a all\rlist a\r", cr),
        ("device a all\r\nlist a\r\n", ""),
    ):
        script = viewing.written(f"{work}/remarked", text)
        counter.tell(f"the remark on {text!r}", viewing.output(program, "fault", script) == no_fault + remark)


def breach(devices, order):
    """Returns what is known of an order: the first number that is none, stands there twice, stands behind a later one that works
    on the same device, or is missing. `devices` has of each command those that it works on."""
    for at, number in enumerate(order):
        if not 1 <= number <= len(devices):
            return f"no command has the number {number}: there are {len(devices)}"
        if number in order[:at]:
            return f"{number} stands there twice"
        for device in devices[number - 1]:
            later = [other for other in order[:at] if other > number and device in devices[other - 1]]
            if later:
                return f"{number} stands behind {max(later)}, and both work on {device}"
    missing = [number for number in range(1, len(devices) + 1) if number not in order]
    return f"{missing[0]} is missing" if missing else None


def check_orders(counter, program, fleet, work):
    """Of drawn orders of drawn scripts it is told why 'replay' refuses them."""
    lawful = 0
    for seed in range(40):
        rng = random.Random(seed)
        named, commands = viewing.draw(rng)
        commands = commands[:8]
        lines = [f"device {name} {selects}" for name, selects in named] + [viewing.line_of(command) for command in commands]
        script = viewing.written(f"{work}/ordered", "\n".join(lines) + "\n")
        devices = [[device, what] if kind == "pull" else [device] for kind, device, what, _ in commands]
        order = list(range(1, len(commands) + 1))
        for _ in range(rng.randint(0, 3)):
            at = rng.randrange(len(order) - 1)
            order[at], order[at + 1] = order[at + 1], order[at]
        if rng.random() < 0.2:
            order[rng.randrange(len(order))] = rng.randint(0, 12)
        if rng.random() < 0.1:
            order.pop()
        why = breach(devices, order)
        lawful += why is None
        words = [script, *map(str, order)]
        replayed = viewing.output(fleet, "replay", *words) is not None if 0 not in order else False
        told = viewing.output(program, "fault", *words, status=0 if why is None else 3) or ""
        if why is None:
            is_told = told == "no fault: it is a script, and its commands may run in that order\n"
        else:
            is_told = told.startswith(f"run error: E3 NotLawful\nknown:    {why}\nmend:     ")
        counter.tell(f"the order {order} of the drawn script {seed}", is_told and replayed == (why is None))
    counter.tell(f"{lawful} lawful orders of 40", 8 <= lawful <= 32)
