"""Scripts that are drawn by chance, some of them with a fault, and what the pulls of their runs count."""
import re

NAMES = ["cam", "hall", "desk", "attic"]
TESTS = ["all", "none", "rating >= 3", "rating <= 2", "rating = 4", "day >= 2024-05-02", "day <= 2024-05-01", "keyword sea", "keyword private",
         "keyword cafe\u0301"]
SHAPES = ["{}", "{}", "not {}", "{} and {}", "{} or {}", "{} and not ({} or {})", "not ({} and {}) or {}"]
WORDS = ["-", "sea", "wood,sea", "private", "beach,sea,wood", "caf\u00e9", "cafe\u0301,sea"]
# filters of which the first one matches what the second one does
BROAD = ["all", "all", "all", "day >= 2024-05-01", "not keyword private"]
NARROW = ["rating >= 3", "rating >= 3 and not keyword private", "rating >= 2 and day >= 2024-05-02", "rating >= 4 or (rating = 3 and keyword sea)"]
KINDS = ["new", *["edit"] * 4, *["turn"] * 6, "remove", "pull", "narrow", "refilter", "preview", "list", "conflicts", "knowledge", "knows", "knows",
         "# remark", ""]
CHANGES = ["new", "edit", "turn", "remove"]
FAULTS = ["take cam", "pull\tcam hall", "new cam 70 5 2024-05-03", "new cam 70 5 2024-05-03 sea, wood", "list", "list cam hall", "narrow cam",
          "device Attic all", "device 9 all", "list roof", "pull cam roof", "knows cam 7 roof:1", "device cam none", "device more all",
          "new cam 007 5 2024-05-03 -", "edit cam 1000000000 5 2024-05-03 -", "remove cam x", "knows cam 7 cam", "knows cam 7 cam.0:1",
          "knows cam 7 cam:100001", "new cam 70 6 2024-05-03 -", "edit cam 7 -1 2024-05-03 -", "new cam 70 5 2024-5-3 -",
          "edit cam 7 5 2023-02-29 -", "new cam 70 5 2024-05-03 sea,sea", "edit cam 7 5 2024-05-03 sea,", "narrow cam rating>=5",
          "refilter cam (all", "refilter cam keyword", "device more rating > 3", "new cam 70 5 2024-05-03 -\nnew cam 70 5 2024-05-03 -",
          "pull cam cam", "preview cam cam", "#" * 1025]


def filter_of(draws, place):
    """The filter of a device: the first one's is likely to be broader than the others'."""
    if draws.random() < 0.15:
        return draws.choice(SHAPES).format(*draws.choices(TESTS, k=3))
    return draws.choice(BROAD if place == 0 else NARROW)


def drawn(draws):
    """A script of some devices and commands, of which few have a fault. Most changes are edits of what the device has met, and
    another device pulls behind most of them."""
    names = NAMES[:draws.choice([1, 2, 2, 2, 3, 3, 4])]
    filters = {name: filter_of(draws, place) for place, name in enumerate(names)}
    lines = [f"device {name} {text}" for name, text in filters.items()]
    met = {name: [] for name in names}
    made = 0
    for _ in range(draws.randint(3, 20)):
        kind = draws.choice(KINDS)
        one, picture = draws.choice([*names, *[names[0]] * 3]), draws.randint(1, min(made, 7) + 1)
        other = draws.choice([name for name in names if name != one] or names)
        said = f"{draws.randint(0, 5)} 2024-05-0{draws.randint(1, 3)} {draws.choice(WORDS)}"
        if kind == "new" or (kind in CHANGES and not met[one]):
            made += 1
            met[one].append(made)
            lines.append(f"new {one} {made} {said}")
        elif kind == "turn":
            at = draws.choice(met[one])
            lines += [f"edit {one} {at} 5 2024-05-03 {draws.choice(WORDS)}", *[f"pull {other} {one}"] * (other != one), f"edit {one} {at} 1 {said[2:]}"]
        elif kind == "edit":
            lines.append(f"edit {one} {draws.choice(met[one])} {said}")
        elif kind == "remove":
            lines.append(f"remove {one}   {draws.choice([*met[one], picture])} ")
        elif kind in ("pull", "preview"):
            lines += [f"{kind} {one} {other}"] if other != one else []
        elif kind == "narrow":
            lines.append(f"narrow {one} {draws.choice([f'({filters[one]}) and ', ''])}{draws.choice(TESTS)}")
        elif kind == "refilter":
            filters[one] = filter_of(draws, names.index(one))
            lines.append(f"refilter {one} {filters[one]}")
        elif kind == "knows":
            lines.append(f"knows {one} {picture} {other}{draws.choice(['', '', '.1', '.2'])}:{draws.randint(1, 4)}")
        else:
            lines.append(f"{kind} {one}" if kind.isalpha() else kind)
        if kind in CHANGES and other != one and draws.random() < 0.9:
            met[other] = sorted({*met[one], *met[other]})
            lines.append(f"pull {other} {one}")
    fault = draws.random()
    if fault < 0.17:
        lines.insert(draws.choice([len(names), draws.randint(0, len(lines))]), draws.choice(FAULTS))
    elif fault < 0.172:
        lines[:0] = [f"device d{number} none" for number in range(draws.randint(252, 257))]
    text = draws.choice(["\n", "\n", "\r\n"]).join(lines + [""] * draws.randint(0, 1)).encode()
    if 0.172 <= fault < 0.2:
        at = draws.randint(0, len(text))
        text = text[:at] + bytes([draws.randrange(256)]) + text[at:]
    return text


COUNTS = ["taken", "handed", "notices", "dropped", "learned"]
PULLED = re.compile(rb"(?m)^\d+ pulled taken (\d+) handed (\d+) notices (\d+) dropped (\d+) learned (yes|no)$")


class Pulls:
    """Counts the pulls of runs, and those of which each count is above 0, or of which it is that all was learned."""

    def __init__(self):
        self.all = 0
        self.above = dict.fromkeys(COUNTS, 0)

    def add(self, printed):
        """Adds the pulls of what a run printed."""
        for counts in PULLED.findall(printed):
            self.all += 1
            for name, count in zip(COUNTS, counts):
                self.above[name] += count not in (b"0", b"no")

    def is_varied(self):
        """Whether each count is above 0 in a tenth of the pulls."""
        return self.all > 0 and all(10 * above >= self.all for above in self.above.values())

    def __str__(self):
        return f"{self.all:,} pulls of drawn scripts, of them " + ", ".join(f"{above:,} with {name}" for name, above in self.above.items())
