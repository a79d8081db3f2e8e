"""Checks the bands, triangles, titles and names of charts by the reports of 'conflicts' and of each command."""
import html
import os
import random
import re

import drawn_scripts
import viewing

BANDED = 40


def draw_strife(rng):
    """Returns the text of a script with few pictures that all devices edit, so that versions in conflict go and come."""
    names = [f"d{place}" for place in range(rng.randint(3, 4))]
    lines = [f"device {name} {rng.choice(['all', 'rating >= 3', 'rating <= 3'])}" for name in names]
    lines += [f"new d0 {picture} 3 2024-05-01 -" for picture in (1, 2)] + [f"pull {name} d0" for name in names[1:]]
    for _ in range(40):
        device = rng.choice(names)
        other = rng.choice([name for name in names if name != device])
        lines.append(rng.choice([f"edit {device} {rng.randint(1, 2)} {rng.randint(0, 5)} 2024-05-01 -", f"pull {device} {other}"]))
    return "\n".join(lines)


def strife_after(fleet, work, text):
    """Returns the devices, and how many pictures each has in conflict after each command, by the reports of 'conflicts'."""
    lines = text.split("\n")
    devices = [line.split()[1] for line in lines if line.split()[:1] == ["device"]]
    asked = []
    for line in lines:
        asked += [line.rstrip("\r")] + [f"conflicts {name}" for name in devices] * viewing.is_command(line)
    reports = viewing.output(fleet, "plain", viewing.written(f"{work}/asked", "\n".join(asked) + "\n"))
    heads = re.findall(r"^\d+ (.*)$", reports, flags=re.M)
    rows = [heads[at + 1:at + 1 + len(devices)] for at in range(0, len(heads), len(devices) + 1)]
    return devices, [[int(head.split()[2]) for head in row] for row in rows]


def bands_by(devices, rows):
    """Returns the bands, from a command to another or to the chart's end, and the triangles."""
    bands, alarms = set(), set()
    for place, name in enumerate(devices):
        first, before = None, 0
        for number, row in enumerate(rows, 1):
            pictures = row[place]
            if pictures > before:
                alarms.add((number, name))
            if pictures and not before:
                first = number
            if before and not pictures:
                bands.add((name, first, number))
            before = pictures
        if before:
            bands.add((name, first, "end"))
    return bands, alarms


def bands_in(chart):
    """Returns the same as a chart has it: a band reaches from the mark of a command to that of another or to its lane's end."""
    lanes = {y: (name, end) for name, y, end in re.findall(r'<g><title>(\w+)[^<]*</title><path class="lane" d="M\d+ (\d+)H(\d+)"/>', chart)}
    places = {}
    mark = r'<(?:text class="mid[^>]* x="(\d+)"|path class="(?:pull|preview)" d="M(\d+)|circle [^>]*cx="(\d+)"|path class="refused" d="M(\d+)|rect class="filter" x="(\d+)")'
    for number, told in re.findall(r"<g><title>(\d+) (?!leaves)[^<]*</title>(.*?)</g>", chart, flags=re.S):
        text, arrow, dot, cross, square = re.search(mark, told).groups()
        place = int(text or arrow or dot or int(cross or square) + 5)
        places.setdefault(place, set()).add(int(number))
    bands = set()
    for from_, y, end in re.findall(r'<path class="strife" d="M(\d+) (\d+)H(\d+)"/>', chart.split('<g transform="')[0]):
        name, last = lanes[y]
        bands.add((name, int(from_), "end" if end == last else int(end)))
    alarms = {(int(number), name) for number, name in re.findall(r"<g><title>(\d+) leaves (\w+) with", chart)}
    return bands, alarms, {number: place for place, numbers in places.items() for number in numbers}


def has_bands(chart, devices, rows):
    """Whether a chart has the bands and the triangles of the reports."""
    bands, alarms = bands_by(devices, rows)
    drawn_bands, drawn_alarms, places = bands_in(chart)
    placed = {(name, places[first], places.get(end, end)) for name, first, end in bands}
    return sorted(places) == list(range(1, len(rows) + 1)) and placed == drawn_bands and alarms == drawn_alarms


def check_titles(counter, name, text, chart, reports):
    """The titles say of each pull what it moved, as many versions as its report counts, and of each refusal its cause."""
    commands = [line.split() for line in text.split("\n") if viewing.is_command(line)]
    titles = {int(number): told for number, told in re.findall(r"<g><title>(\d+) (?!leaves)([^<]*)</title>", chart)}
    is_right = True
    for (kind, device, *_), (number, told) in zip(commands, re.findall(r"^(\d+) (.*)$", reports, flags=re.M)):
        title, words = html.unescape(titles[int(number)]), told.split()
        if words[0] in ("pulled", "preview"):
            moved = re.findall(r"(\[?)\d+ \w+(?:\.\d+)?:\d+", title.partition("mov")[2])
            handed = moved.count("[")
            is_right &= "and more" in title or (len(moved) - handed, handed) == (int(words[2]), int(words[4]))
        elif words[:2] == ["refused", "C1"]:
            is_right &= title.endswith(f", which is refused: {device} holds no version of the picture")
        elif words[:2] == ["refused", "C2"]:
            is_right &= title.endswith(", which is refused: the device's filter doesn't cover that one")
    counter.tell(f"the titles of {name}", is_right and len(titles) == len(commands))


def has_names(chart):
    """Whether each lane has its device's name again at least every screen's width."""
    lanes = re.findall(r'<path class="lane" d="M(\d+) (\d+)H(\d+)"/>', chart)
    for from_, y, end in lanes:
        places = [int(x) for x in re.findall(rf'<text class="name" x="(\d+)" y="{int(y) - 4}">', chart)]
        stops = [int(from_), *places[1:], int(end)]
        if any(stop - start > 1400 for start, stop in zip(stops, stops[1:])):
            return False
    return bool(lanes)


def check_bands(counter, program, fleet, work):
    names = sorted(name for name in os.listdir(f"{viewing.TOP}/examples") if name.endswith(".script"))
    scripts = {name: open(f"{viewing.TOP}/examples/{name}", newline="").read() for name in names}
    for seed in range(BANDED):
        rng = random.Random(seed)
        devices, commands = viewing.draw(rng)
        scripts[f"own {seed}"] = "\n".join([f"device {name} {selects}" for name, selects in devices] + [viewing.line_of(command) for command in commands])
        scripts[f"strife {seed}"] = draw_strife(rng)
        scripts[f"drawn {seed}"] = drawn_scripts.drawn(rng).decode(errors="replace")
    ended = lent = 0
    for name, text in scripts.items():
        script = viewing.written(f"{work}/banded", text)
        if viewing.output(fleet, "plain", script) is None:
            continue
        devices, rows = strife_after(fleet, work, text)
        commands = [line.split() for line in text.split("\n") if viewing.is_command(line)]
        for band in bands_by(devices, rows)[0]:
            if band[2] != "end":
                ended += 1
                lent += commands[band[2] - 1][0] == "pull" and commands[band[2] - 1][2] == band[0]
        for words in (["chart"], ["chart", "--batches"]):
            chart = viewing.output(program, *words, script) or ""
            counter.tell(f"{' '.join(words)}: the bands of {name}", has_bands(chart, devices, rows))
            counter.tell(f"{' '.join(words)}: the names of {name}", has_names(chart) or not devices)
        check_titles(counter, name, text, viewing.output(program, "chart", script) or "", viewing.output(fleet, "plain", script))
    counter.tell(f"{ended} bands that end, {lent} at a pull that hands over", ended > 20 and lent > 2)
