"""Checks `where` and `story` on scripts that are drawn: each is reckoned from the reports of `list`, `knows` and `preview`."""
import collections
import random
import re

import drawn_scripts
import traced_runs
import viewing

DRAWN = 20


def check_drawn(counter, program, fleet, work):
    """'where' and 'story' of scripts that are drawn, also after the first commands, and in tables of some width."""
    pulls, told = drawn_scripts.Pulls(), collections.Counter()
    for seed in range(DRAWN):
        rng = random.Random(seed)
        text = viewing.script_of(*viewing.draw(rng))
        traced = traced_runs.Traced(fleet, text)
        script = viewing.written(f"{work}/drawn", text)
        pulls.add((viewing.output(fleet, "plain", script) or "").encode())
        for named in ([], sorted(rng.sample(range(1, 40), 3))):
            shown = viewing.output(program, "where", script, *map(str, named))
            counter.tell(f"where of the drawn script {seed}, pictures {named}", shown == traced.where(named))
        at, width = rng.randint(0, len(traced.commands) + 2), rng.choice([1, 40, 60, 80])
        shown = viewing.output(program, "where", "--at", str(at), "--width", str(width), script)
        counter.tell(f"where of the drawn script {seed} after {at} commands, {width} columns wide", shown == traced.where(last=at, width=width))
        check_stories(counter, program, script, traced, f"the drawn script {seed}", shown=None)
        told += kinds_told(traced)
    print(pulls)
    counter.tell("the counts of these pulls", pulls.is_varied())
    counter.tell(f"each kind of thing that happens: {dict(told)}", len(told) == 12 and min(told.values()) > 1)


def kinds_told(traced):
    """Counts the kinds of things that happened along a run."""
    return collections.Counter(what for number in range(1, len(traced.commands) + 1) for _, _, what in traced.events(number))


def check_stories(counter, program, script, traced, name, shown):
    """The story of each picture, and of one that wasn't made, is what is reckoned; at its end it says what 'where' shows."""
    pictures = sorted({version.picture for version in traced.log})
    unmade = next(number for number in range(1, len(pictures) + 2) if number not in pictures)
    is_told = all(viewing.output(program, "story", script, str(picture)) == traced.story(picture) for picture in [*pictures, unmade])
    counter.tell(f"the stories of {name}", is_told)
    if shown is not None:
        lacking = [row for picture in pictures for row in lacking_in(traced, viewing.output(program, "story", script, str(picture)) or "")]
        counter.tell(f"the ends of the stories of {name}, against where", sorted(lacking) == sorted(lacking_by_where(shown)))


def lacking_in(traced, story):
    """Returns which devices lack which versions, and whether they don't know of them, as a story says at its end."""
    rows = re.findall(r"(?m)^  (\w+) +(\S+) +(.*)$", story.partition("\nwho lacks")[2])
    return [(name, version, why.startswith("doesn't know")) for name, version, why in rows]


def lacking_by_where(shown):
    """Returns the same by the table of 'where': ~V is only known, -V is not known."""
    head, *rows = [re.split("  +", line) for line in shown.split("\n\n")[0].splitlines()]
    return [(name, cell[1:], cell[0] == "-") for row in rows for name, tokens in zip(head[2:], row[2:]) for cell in tokens.split() if cell[0] in "~-"]
