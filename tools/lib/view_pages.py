"""Checks pages: their data by reports, and what Chromium shows of them at each command."""
import collections
import json
import os
import random
import re
import unicodedata

import browsing
import traced_runs
import view_tables
import viewing

PAGED = 6


def data_of(page):
    """Returns the data of a page."""
    found = re.search(r'<script id="run" type="application/json">\n(.*?)\n</script>', page or "", re.S)
    return json.loads(found[1]) if found else None


# Into which set of a device each thing that happens puts a version, and out of which it takes it.
EFFECTS = {
    "made in its store": ("store", ""), "made in its out": ("out", ""), "took": ("store", ""), "was handed, into its store": ("store", ""),
    "was handed, into its out": ("out", ""), "gave up": ("", "store out"), "handed over": ("", "out"), "moved to its store": ("store", "out"),
    "moved to its out": ("out", "store"), "was told of": ("", ""), "learned of": ("", ""), "forgot": ("", ""),
}


class Replayed:
    """A device as a page's data have it."""

    def __init__(self, filter_):
        self.filter, self.epoch, self.store, self.out, self.star, self.of = filter_, 0, set(), set(), {}, {}

    def happen(self, what, versions):
        into, from_ = EFFECTS[what]
        for part in from_.split():
            setattr(self, part, getattr(self, part) - set(versions))
        if into:
            setattr(self, into, getattr(self, into) | set(versions))

    def learn(self, anew, star, rows):
        if anew:
            self.star, self.of = {}, {}
        bounds = lambda flat: {(flat[i], flat[i + 1]): flat[i + 2] for i in range(0, len(flat), 3)}
        self.star |= bounds(star)
        for pictures, flat in rows:
            self.of |= {picture: bounds(flat) for picture in pictures}
        self.of = {picture: row for picture, row in self.of.items() if row}

    def knows(self, names):
        """Returns the lines of what it knows."""
        text = lambda row: " ".join(f"{names[device]}{f'.{epoch}' * (epoch > 0)}:{n}" for (device, epoch), n in sorted(row.items())) or "-"
        groups = {}
        for picture, row in sorted(self.of.items()):
            groups.setdefault(text(self.star | row), []).append(picture)
        return [f"* {text(self.star)}", *(f"{','.join(map(str, pictures))} {entries}" for entries, pictures in groups.items())]


def command_line(fields):
    """Returns the line of a command in one form: words in form C and in their order, filters with all brackets."""
    if fields[0] in ("new", "edit") and fields[5] != "-":
        words = sorted((unicodedata.normalize("NFC", word) for word in fields[5].split(",")), key=lambda word: word.encode())
        return " ".join([*fields[:5], ",".join(words)])
    if fields[0] in ("narrow", "refilter"):
        return f"{fields[0]} {fields[1]} {traced_runs.Filter(' '.join(fields[2:])).text()}"
    return " ".join(fields)


def groups_of(traced, number):
    """Returns of each kind of thing that a command did on a device the versions, with those that supersede what was given up or
    learned of."""
    groups = {}
    for device, version, what in traced.events(number):
        groups.setdefault((device, what), []).append(version.name)
        if what in ("gave up", "learned of"):
            later = traced.superseder(number, device, version)
            groups.setdefault((device, what, "later"), []).append(later.name if later else None)
    return groups


def groups_in(data, names, command):
    """Returns the same as a page's data have it."""
    groups = {}
    for device, what, versions, *later in command.get("did", []):
        groups[device, what] = [names[version] for version in versions]
        if what in ("gave up", "learned of"):
            groups[device, what, "later"] = [names[version] if version >= 0 else None for version in later[0]]
    return groups


def are_counted(traced, number):
    """Whether as many versions are named of a pull as its report counts."""
    words, kinds = traced.plain[number - 1].split(), collections.Counter()
    if words[0] != "pulled":
        return True
    target = traced.devices_of(number - 1)[0]
    for device, _, what in traced.events(number):
        kinds[what.split(",")[0]] += device == target
    return [kinds[what] for what in ("took", "was handed", "was told of", "gave up")] == [int(words[at]) for at in (2, 4, 6, 8)]


def check_data(counter, name, traced, data):
    """The data of a page are those of the reports."""
    names = traced.names
    versions = [f"{names[device]}{f'.{epoch}' * (epoch > 0)}:{n}" for _, device, epoch, n, _ in data["versions"]]
    counter.tell(f"the devices and versions in the page of {name}", data["devices"] == names and data["filters"] == [one.text() for one in traced.filters]
                 and versions == [one.name for one in traced.log] and [row[0] for row in data["versions"]] == [one.picture for one in traced.log]
                 and [row[4] for row in data["versions"]] == [one.record for one in traced.log])
    are_told = len(data["commands"]) == len(traced.commands) == len(data["columns"]) and len(data["lanes"]) == len(names)
    for place, command in enumerate(data["commands"]):
        are_told &= command["text"] == command_line(traced.commands[place]) and command["report"] == f"{place + 1} {traced.plain[place]}"
        are_told &= command["devices"] == traced.devices_of(place) and are_counted(traced, place + 1)
        are_told &= groups_in(data, versions, command) == groups_of(traced, place + 1)
    counter.tell(f"the commands in the page of {name}", are_told)
    devices, is_same = [Replayed(filter_) for filter_ in data["filters"]], True
    for place, command in enumerate(data["commands"]):
        for device, what, which, *_ in command.get("did", []):
            devices[device].happen(what, which)
        for device, filter_, epoch in command.get("filter", []):
            devices[device].filter, devices[device].epoch = filter_, epoch
        for device, *learned in command.get("knows", []):
            devices[device].learn(*learned)
        for device, state in zip(devices, traced.states[place + 1]):
            held = [sorted((traced.log[one].order for one in part)) for part in (device.store, device.out)]
            is_same &= held == [[one.order for one in part] for part in (state.store, state.out)]
            is_same &= (device.filter, device.epoch) == (state.filter.text(), state.epoch)
            is_same &= not state.knows or device.knows(names) == state.knows
    counter.tell(f"each device after each command in the page of {name}", is_same)


# What a page shows, with all lists unfolded.
SHOWN = """(() => {
  for (let more; (more = document.querySelectorAll("main .more, #said .more")).length;) more.forEach(one => one.click());
  const text = one => one ? one.textContent : null;
  const rows = (box, part) => [...box.querySelectorAll(`table[aria-label^="${part} of "] tr:not(.left)`)]
    .map(row => [Number(text(row.cells[0])), text(row.querySelector("code.what")), text(row.cells[2].querySelector(".what"))]);
  const devices = [...document.querySelectorAll("main section")].map(box => [text(box.querySelector("h2")), text(box.querySelector(".rule")), rows(box, "store"), rows(box, "out"), text(box.querySelector("pre.knows")), text(box.querySelector(".unknown"))]);
  return JSON.stringify([location.hash, [...document.querySelectorAll("#said pre")].map(text), devices]);
})()"""
# The items of the story of the picture that is followed.
ITEMS = """JSON.stringify([...document.querySelectorAll("#story li")].filter(item => item.querySelector("code"))
  .map(item => [parseInt(item.textContent), item.childNodes[2].textContent.split(":")[0], item.querySelector("code").textContent]))"""
# How the devices stand to each current version of that picture.
STANDINGS = """JSON.stringify([[...document.querySelectorAll("#story > div:last-child > div:not(.soft)")]
  .map(box => [box.querySelector("code").textContent, box.childNodes[1].textContent.trim(), [...box.querySelectorAll("li")].map(item => item.textContent)]),
  [...document.querySelectorAll("#story > div:last-child > ol > li")].map(item => item.textContent)])"""


def shown_after(traced, number):
    """Returns what a page has to show after a command."""
    said = ["none yet: the devices as they are declared"]
    if number:
        said = [f"{number} {command_line(traced.commands[number - 1])}", traced.plain[number - 1].rstrip("\n")]
    devices = []
    for name, state in zip(traced.names, traced.states[number]):
        parts = [[[one.picture, one.name, one.record] for one in part] for part in (state.store, state.out)]
        unknown = sorted((one for one in traced.current_all(number) if one not in state.known), key=lambda one: one.order)
        parts += ["\n".join(state.knows or ["* -"]), ", ".join(f"{one.picture} {one.name}" for one in unknown) or None]
        devices.append([name + f".{state.epoch}" * (state.epoch > 0), state.filter.text(), *parts])
    return [f"#{number}", said, devices]


def standings_at(traced, number, picture):
    """Returns how the devices stand to each current version of a picture after a command, as a page has to show it."""
    shown, older, current = [], [], traced.current(picture, number)
    for version in current:
        why = "no filter selects a removal" if version.record == "removed" else "its filter doesn't select it"
        words = {"store": "in the store", "out": "in the out", "known": f"known, not held, since {why}", "unknown": "doesn't know of it"}
        groups = {standing: [name for name, state in zip(traced.names, traced.states[number]) if state.standing(version) == standing] for standing in words}
        shown.append([version.name, version.record, [f"{words[standing]}: {', '.join(names)}" for standing, names in groups.items() if names]])
    for version in traced.log:
        holders = [name for name, state in zip(traced.names, traced.states[number]) if state.held(version)]
        if version.picture == picture and version not in current and holders:
            older.append(f"{version.name}, superseded, is still held by: {', '.join(holders)}")
    return [shown, older]


def check_opened(counter, browser, name, traced, path):
    """A page in a browser: each command stepped to by key, on and back, and each picture followed."""
    count = len(traced.commands)
    browser.open(f"file://{path}")
    is_shown = json.loads(browser.value(SHOWN)) == shown_after(traced, count)
    browser.press("Home")
    for number in range(count + 1):
        is_shown &= json.loads(browser.value(SHOWN)) == shown_after(traced, number)
        browser.press("ArrowRight")
    for number in range(count, -1, -1):
        is_shown &= json.loads(browser.value(SHOWN)) == shown_after(traced, number)
        browser.press("ArrowLeft")
    counter.tell(f"the page of {name}, stepped through by key", is_shown)
    are_told = are_placed = True
    for picture in sorted({version.picture for version in traced.log}):
        browser.open(f"file://{path}#{count // 2},{picture}")
        wanted = [[number, traced.names[device], version.name] for number in range(1, count + 1) for device, version, _ in traced.events(number) if version.picture == picture]
        are_told &= sorted(json.loads(browser.value(ITEMS))) == sorted(wanted) and browser.value("location.hash") == f"#{count // 2},{picture}"
        are_placed &= json.loads(browser.value(STANDINGS)) == standings_at(traced, count // 2, picture)
    counter.tell(f"the pictures that are followed in the page of {name}", are_told)
    counter.tell(f"how devices stand to pictures in the page of {name}", are_placed)
    counter.tell(f"no complaint of the page of {name}: {browser.complaints[:1]}", not browser.complaints)
    browser.complaints.clear()


def word_characters():
    """Returns each character that a word may have and that form C keeps."""
    barred = set(map(ord, ' "(),')) | set(range(0x20)) | set(range(0x7f, 0xa0)) | set(range(0xd800, 0xe000))
    return [chr(code) for code in range(0x110000) if code not in barred and unicodedata.is_normalized("NFC", chr(code))]


def script_of_all_characters():
    """Returns a script whose words have each character that a word may have."""
    words, size = [""], 0
    for character in word_characters():
        size += len(character.encode())
        if size > 60:
            words.append("")
            size = len(character.encode())
        words[-1] += character
    lines = ["device a all"]
    for place in range(0, len(words), 14):
        lines.append(f"new a {place + 1} 3 2024-05-01 {','.join(words[place:place + 14])}")
    return "\n".join([*lines, "list a"]) + "\n"


# Words that HTML, JSON or a script would read as something else.
MARKED = ["</script>", "<script>alert`1`</script>", "<!--", "-->", "]]>", "&lt;", "&amp;", "&#60;", "<b>", "<img/src=x/onerror=alert`1`>", "\\u003c", "\\", "'", "`", "${1}", "{{1}}"]


def script_of_marks():
    lines = [f"device a keyword {MARKED[0]} or not keyword {MARKED[9]}", f"device b keyword {MARKED[2]} or keyword &amp;"]
    for place, word in enumerate(MARKED, 1):
        lines += [f"new a {place} 3 2024-05-01 {word}", "pull b a"]
    return "\n".join([*lines, f"narrow a keyword {MARKED[0]}", "list a", "list b"]) + "\n"


def check_words(counter, program, fleet, work, browser):
    """Words with each character that a word may have, and such as HTML reads as marks."""
    script = viewing.written(f"{work}/characters", script_of_all_characters())
    page = viewing.output(program, "page", script)
    data = data_of(page) or {"versions": []}
    records = re.findall(r"(?m)^  store \d+ \S+ (.*)$", viewing.output(fleet, "plain", script) or "")
    shown = [row[4] for row in data["versions"]]
    counter.tell(f"{len(word_characters())} characters in the page's data", len(records) > 4000 and shown == records)
    marks = script_of_marks()
    marked = viewing.output(program, "page", viewing.written(f"{work}/marks", marks)) or ""
    for name, text in (("characters", page or ""), ("marks", marked)):
        data_text = re.search(r'<script id="run" type="application/json">(.*?)</script>', text, re.S)
        counter.tell(f"no mark of HTML in the data of the page of {name}", data_text is not None and not re.search("[<>&\u2028\u2029]", data_text[1]) and text.count("<script") == 2)
    if browser:
        browser.open(f"file://{viewing.written(f'{work}/characters.html', page)}")
        read = browser.value("JSON.stringify(run.versions.map(row => row[4]))")
        counter.tell("each character as the browser reads it", json.loads(read) == records)
        browser.complaints.clear()
        check_opened(counter, browser, "marks", traced_runs.Traced(fleet, marks), viewing.written(f"{work}/marks.html", marked))
        counter.tell("no element by a word", browser.value("document.scripts.length") == 2 and browser.value("document.querySelectorAll('main img, main b, main script, header b').length") == 0)


def check_pages(counter, program, fleet, work):
    """The page of each example and of drawn scripts, its data and what a browser shows of it; and the stories of each example."""
    path = browsing.program()
    browser = browsing.Browser(path, 1300, 6000) if path else None
    if not browser:
        print("left out, since no browser is there: the pages of the examples opened in Chromium and stepped through by key")
    names = sorted(name for name in os.listdir(f"{viewing.TOP}/examples") if name.endswith(".script"))
    scripts = {name: open(f"{viewing.TOP}/examples/{name}", newline="").read() for name in names}
    for seed in range(PAGED):
        scripts[f"the drawn script {seed}"] = viewing.script_of(*viewing.draw(random.Random(seed)))
    for name, text in scripts.items():
        script = viewing.written(f"{work}/paged", text)
        if viewing.output(fleet, "plain", script) is None:
            continue
        traced = traced_runs.Traced(fleet, text)
        shown = viewing.output(program, "where", script)
        counter.tell(f"where of {name}, reckoned", shown == traced.where())
        view_tables.check_stories(counter, program, script, traced, name, shown)
        page = viewing.output(program, "page", script)
        data = data_of(page)
        counter.tell(f"the page of {name} has data", data is not None)
        if data is not None:
            check_data(counter, name, traced, data)
            counter.tell(f"the title of the page of {name}", data["name"] == script)
            if browser:
                check_opened(counter, browser, name, traced, viewing.written(f"{work}/paged.html", page))
    check_words(counter, program, fleet, work, browser)
    if browser:
        browser.close()
