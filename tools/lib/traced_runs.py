"""What devices hold and know after each command of a script, asked of 'photofleet', and what the views have to say of that."""
import re
import subprocess
import unicodedata

MARKS = {"store": ("", ""), "out": ("[", "]"), "known": ("~", ""), "unknown": ("-", "")}
CHANGES = ("new", "edit", "remove", "pull", "narrow", "refilter")
# A script may have 100,000 commands.
MOST_QUESTIONS = 80_000


class Filter:
    """A filter's tree, by the grammar of docs/FORMATS.md."""

    def __init__(self, text):
        self.tokens = unicodedata.normalize("NFC", text).replace("(", " ( ").replace(")", " ) ").strip(" ").split(" ")
        self.tokens = [token for token in self.tokens if token]
        self.tree = self.joined("or", lambda: self.joined("and", self.factor))

    def joined(self, word, part):
        tree = part()
        while self.tokens[:1] == [word]:
            del self.tokens[0]
            tree = (word, tree, part())
        return tree

    def factor(self):
        token = self.tokens.pop(0)
        if token == "not":
            return ("not", self.factor())
        if token == "(":
            tree = self.joined("or", lambda: self.joined("and", self.factor))
            del self.tokens[0]
            return tree
        if token in ("all", "none"):
            return (token,)
        operands = [self.tokens.pop(0) for _ in range(1 if token == "keyword" else 2)]
        return (token, *operands)

    def text(self, tree=None):
        """Returns the printed filter."""
        tree = tree or self.tree
        if tree[0] in ("and", "or"):
            return f"( {self.text(tree[1])} {tree[0]} {self.text(tree[2])} )"
        return "not " + self.text(tree[1]) if tree[0] == "not" else " ".join(tree)

    def selects(self, record, tree=None):
        """Whether it selects what a list says of a version."""
        tree = tree or self.tree
        if record == "removed":
            return False
        rating, day, words = re.fullmatch(r"rating (\d) day (\S+) words (.*)", record, re.S).groups()
        if tree[0] in ("all", "none"):
            return tree[0] == "all"
        if tree[0] == "keyword":
            return tree[1] in words.split(",") and words != "-"
        if tree[0] == "not":
            return not self.selects(record, tree[1])
        if tree[0] in ("and", "or"):
            return {"and": all, "or": any}[tree[0]](self.selects(record, part) for part in tree[1:])
        value = rating if tree[0] == "rating" else day
        return {">=": value >= tree[2], "<=": value <= tree[2], "=": value == tree[2]}[tree[1]]


class Version:
    """A version that a command made, with the versions that its maker knew of its picture."""

    def __init__(self, name, picture, number, places):
        self.name, self.picture, self.number, self.record, self.history = name, picture, number, None, []
        author, n = name.split(":")
        device, _, epoch = author.partition(".")
        self.order = (picture, places[device], int(epoch or 0), int(n))

    def __repr__(self):
        return self.name


class State:
    """A device after a command."""

    def __init__(self, filter_, epoch):
        self.filter, self.epoch = filter_, epoch
        self.store, self.out, self.known, self.knows = [], [], set(), []

    def standing(self, version):
        if version in self.store:
            return "store"
        if version in self.out:
            return "out"
        return "known" if version in self.known else "unknown"

    def held(self, version):
        return version in self.store or version in self.out


class Traced:
    """A script with its run: each device after each command."""

    def __init__(self, program, text):
        self.program = program
        lines = [line.removesuffix("\r") for line in text.split("\n")]
        lines = [[field for field in line.split(" ") if field] for line in lines]
        lines = [line for line in lines if line and not line[0].startswith("#")]
        self.lines = [" ".join(line) for line in lines]
        declared = [line for line in lines if line[0] == "device"]
        self.commands = [line for line in lines if line[0] != "device"]
        self.names = [line[1] for line in declared]
        self.places = {name: place for place, name in enumerate(self.names)}
        self.filters = [Filter(" ".join(line[2:])) for line in declared]
        self.plain = self.answers([])
        self.log = []
        self.states = [[State(one, 0) for one in self.filters]]
        self.follow()

    def answers(self, asked):
        """Returns the reports of the commands, without their numbers; with questions behind some of them those of the questions.
        'asked' has of each command the questions behind it."""
        count = len(self.names)
        lines = self.lines[:count]
        for place, line in enumerate(self.lines[count:]):
            lines += [line, *(asked[place] if asked else [])]
        told = subprocess.run([*self.program, "plain", "-"], input="\n".join(lines).encode() + b"\n", capture_output=True)
        if told.returncode:
            raise ValueError(told.stderr.decode())
        return re.split(r"(?m)^\d+ (?=[a-z])", told.stdout.decode())[1:]

    def devices_of(self, place):
        """The devices of a command, by their places: that which it names first, and the source of a pull or a preview."""
        fields = self.commands[place]
        return [self.places[name] for name in (fields[1:3] if fields[0] in ("pull", "preview") else fields[1:2])]

    def follow(self):
        """Finds each device after each command: what it holds and knows."""
        for place, report in enumerate(self.plain):
            if report.startswith("made "):
                self.log.append(Version(report.split()[1], int(self.commands[place][2]), place + 1, self.places))
        made = {version.name: version for version in self.log}
        total = sum((2 + sum(one.number <= place + 1 for one in self.log)) * len(self.names) for place in range(len(self.commands)))
        asked, keys = [], []
        for place, fields in enumerate(self.commands):
            questions = []
            devices = range(len(self.names)) if total <= MOST_QUESTIONS else self.devices_of(place) * (fields[0] in CHANGES)
            for device in devices:
                name = self.names[device]
                versions = [one for one in self.log if one.number <= place + 1]
                keys.append((place, device, versions))
                questions += [f"list {name}", f"knowledge {name}", *(f"knows {name} {one.picture} {one.name}" for one in versions)]
            asked.append(questions)
        answers = iter(self.answers(asked))
        at = 0
        for place, fields in enumerate(self.commands):
            next(answers)
            state = list(self.states[-1])
            while at < len(keys) and keys[at][0] == place:
                state[keys[at][1]] = self.read(state[keys[at][1]], place, keys[at], answers, made)
                at += 1
            self.states.append(state)
        for version in self.log:
            maker = self.states[version.number - 1][self.devices_of(version.number - 1)[0]]
            version.history = [one for one in self.log if one.picture == version.picture and one in maker.known]

    def read(self, before, place, key, answers, made):
        """Returns a device after a command, by the answers to the questions on it."""
        fields, report = self.commands[place], self.plain[place]
        state = State(before.filter, before.epoch)
        if report.startswith(("narrowed", "refiltered")) and self.places[fields[1]] == key[1]:
            state.filter = Filter(" ".join(fields[2:]))
            state.epoch += report.startswith("refiltered")
        for where, _, name, record in re.findall(r"(?m)^  (store|out) (\d+) (\S+) (.*)$", next(answers)):
            made[name].record = record
            getattr(state, where).append(made[name])
        state.knows = [line[2:] for line in next(answers).splitlines()[1:]]
        state.known = {version for version in key[2] if next(answers).startswith("knows yes")}
        return state

    # ---- What a command did

    def superseder(self, number, device, version):
        """The latest version that a device knows after a command and that supersedes another one."""
        known = self.states[number][device].known
        later = [one for one in self.log if one.number <= number and version in one.history and one in known]
        return later[-1] if later else None

    def events(self, number):
        """What a command did to versions: (device, version, what), the latest version first, on each of its devices."""
        command, found = self.commands[number - 1], []
        if command[0] not in CHANGES:
            return found
        devices = self.devices_of(number - 1)
        source = self.states[number - 1][devices[1]] if len(devices) > 1 else None
        for device in devices:
            was, is_ = self.states[number - 1][device], self.states[number][device]
            for version in reversed([one for one in self.log if one.number <= number]):
                steps = (was.standing(version), is_.standing(version))
                lends = source is not None and device == devices[1]
                what = self.what(steps, lends, source, was, version)
                if what:
                    found.append((device, version, what))
        return found

    def what(self, steps, lends, source, was, version):
        """What happened to a version to which a device stood and stands so."""
        before, behind = steps
        if before == behind:
            return None
        if {before, behind} == {"store", "out"}:
            return f"moved to its {behind}"
        if behind in ("store", "out"):
            if source is None:
                return f"made in its {behind}"
            return "took" if version in source.store else f"was handed, into its {behind}"
        if before in ("store", "out"):
            return "handed over" if lends else "gave up"
        if behind == "unknown":
            return "forgot"
        noticed = version in source.store and any(was.held(one) for one in version.history)
        return "was told of" if noticed else "learned of"

    # ---- A picture's story

    def unselected(self, filter_, version):
        if version.record == "removed":
            return "no filter selects a removal"
        return f"its filter '{filter_.text()}' doesn't select {version.record}"

    def told(self, number, device, version, what):
        """Returns the line of a story."""
        devices = self.devices_of(number - 1)
        target, source = (self.names[devices[0]], self.names[devices[-1]])
        filter_, later = self.states[number][device].filter, self.superseder(number, device, version)
        unselected, name = self.unselected(filter_, version), version.name
        if what == "gave up":
            gone = len(devices) > 1 and not self.states[number - 1][devices[1]].held(later)
            return f"gave up {name}{f', which {source} doesn' + chr(39) + 't keep' if gone else ''}: {later.name} supersedes it"
        return {
            "made in its store": f"made {name} in its store: {version.record}",
            "made in its out": f"made {name} in its out: {unselected}",
            "took": f"took {name} from {source}",
            "was handed, into its store": f"was handed {name} by {source}, into its store",
            "was handed, into its out": f"was handed {name} by {source}, into its out: {unselected}",
            "was told of": f"was told of {name}, without its contents, by {source}: {unselected}",
            "learned of": f"learned of {name}, without its contents, from {source}: {f'{later.name} supersedes it' if later else unselected}",
            "handed over": f"handed {name} over to {target}",
            "moved to its store": f"moved {name} to its store: its filter '{filter_.text()}' selects {version.record}",
            "moved to its out": f"moved {name} to its out: {unselected}",
            "forgot": f"forgot {name}: its next epoch knows only what it holds",
        }[what]

    def current(self, picture, last=None):
        versions = [one for one in self.log if one.picture == picture and (last is None or one.number <= last)]
        return [one for one in versions if not any(one in other.history for other in versions)]

    def current_all(self, last):
        """Returns the current versions of all pictures after so many commands."""
        return [one for picture in {one.picture for one in self.log} for one in self.current(picture, last)]

    def story(self, picture):
        """Returns what 'story' has to tell of a picture."""
        rows, losses = [["command", "device", f"what happened to picture {picture}"]], {}
        for number in range(1, len(self.commands) + 1):
            for device, version, what in self.events(number):
                if version.picture == picture:
                    rows.append([str(number), self.names[device], self.told(number, device, version, what)])
                    if what in ("gave up", "handed over"):
                        over = " over" if what == "handed over" else ""
                        losses[device] = f"; {'handed' if over else 'gave up'} {version.name}{over} in {number}"
        current = self.current(picture)
        if not current:
            return f"no command made picture {picture}\n"
        lacking = []
        for device, state in enumerate(self.states[-1]):
            holds = any(one.picture == picture for one in state.store + state.out)
            for version in current:
                if not state.held(version):
                    why = self.unselected(state.filter, version) if version in state.known else "doesn't know of it"
                    lacking.append([f"  {self.names[device]}", version.name, why + ("" if holds else losses.get(device, ""))])
        end = ["", "who lacks a current version, and why:", *table(lacking)] if lacking else ["", "each device has each current version"]
        return "\n".join([*table(rows), *end]) + "\n"

    # ---- Where pictures are

    def cell(self, last, device, picture):
        current, tokens = self.current(picture, last), []
        for version in self.log:
            if version.picture == picture and version.number <= last:
                standing = self.states[last][device].standing(version)
                before, behind = MARKS[standing]
                if version in current or standing in ("store", "out"):
                    tokens.append(before + version.name + behind + ("" if version in current else "*"))
        return " ".join(tokens)

    def moves(self, last, pictures):
        lines = []
        for target, to in enumerate(self.states[last]):
            for source, from_ in enumerate(self.states[last]):
                wanted = lambda one: one not in to.known and one.picture in pictures
                taken = [one for one in from_.store if wanted(one) and to.filter.selects(one.record)]
                handed = [one for one in from_.out if wanted(one)]
                moved = [f" {one.picture} {one.name}" for one in taken] + [f" [{one.picture} {one.name}]" for one in handed]
                if moved and source != target:
                    counts = f"takes {len(taken)}, is handed {len(handed)}"
                    lines.append(f"  pull {self.names[target]} {self.names[source]}  {counts}:{''.join(moved)}")
        return lines

    def reasons(self, last, pictures):
        lines, shown, states = [], set(), self.states[last]
        for picture in pictures:
            for version in self.current(picture, last):
                known = [device for device, state in enumerate(states) if state.standing(version) == "known"]
                if known:
                    lines.append(f"  {picture} {version.name}, {version.record}: " + " ".join(self.names[device] for device in known))
                    shown |= set(known) if version.record != "removed" else set()
        lines += [f"  {self.names[device]} keeps {states[device].filter.text()}" for device in sorted(shown)]
        return ["", "only known, since the device's filter doesn't select it:", *lines] if lines else []

    def where(self, named=(), last=None, width=None):
        """Returns what 'where' has to show of the pictures that are named, or of all, after so many commands."""
        last = len(self.commands) if last is None else min(last, len(self.commands))
        made = {one.picture for one in self.log if one.number <= last}
        pictures = sorted(made & set(named) if named else made)
        rows, strife = [["picture", "current", *self.names]], []
        for picture in pictures:
            current = self.current(picture, last)
            shown = " ! ".join(one.name + (" removed" if one.record == "removed" else "") for one in current)
            rows.append([str(picture), shown, *(self.cell(last, device, picture) for device in range(len(self.names)))])
            if len(current) > 1:
                strife.append(f"  {picture}: " + " ".join(one.name for one in current))
        lines = cut_table(rows, width)
        lines += ["", "V in the store, [V] in the out, ~V only known, -V not known; V* superseded"]
        lines += [f"no command made picture {picture}" for picture in named if picture not in made]
        lines += self.reasons(last, pictures)
        if strife:
            lines += ["", "conflicts, which an edit on a device that has all of them resolves:", *strife]
        moves = self.moves(last, pictures)
        lines += ["", "pulls that would bring versions, those from an out in brackets:" if moves else "no pull would bring a version", *moves]
        return "\n".join(lines) + "\n"


def wide(text):
    """How many columns of a terminal a text takes, of texts that this tool writes into tables."""
    return sum(2 if unicodedata.east_asian_width(c) in "WF" else 0 if unicodedata.combining(c) else 1 for c in text)


def table(rows):
    """Returns the lines of a table, whose columns are as wide as their widest cells."""
    widths = [max(map(wide, column)) for column in zip(*rows)]
    return ["  ".join(cell + " " * (width - wide(cell)) for cell, width in zip(row, widths)).rstrip(" ") for row in rows]


def cut_table(rows, width):
    """Returns the lines of a table, or of several ones of at most that width, each with the first two columns."""
    widths = [max(map(wide, column)) for column in zip(*rows)]
    parts = [[]]
    for column in range(2, len(widths)):
        used = sum(widths[place] + 2 for place in [0, 1, *parts[-1], column]) - 2
        if width is not None and used > width and parts[-1]:
            parts.append([])
        parts[-1].append(column)
    lines = []
    for place, part in enumerate(parts):
        lines += [""] * (place > 0) + table([[row[column] for column in [0, 1, *part]] for row in rows])
    return lines
