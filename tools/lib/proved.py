"""The crates of the repository, and the libraries that `tools/gate/prove-all` left of them in out/proved."""
import functools
import hashlib
import os
import shutil

TOP = os.path.dirname(os.path.dirname(os.path.dirname(os.path.abspath(__file__))))
KIT = os.path.dirname(os.path.dirname(os.path.realpath(shutil.which("rt") or "/rt/rt")))
RATTLE = f"{KIT}/bin/rattle"
PROVED = f"{TOP}/out/proved"


class Crate:
    """A crate: its line of crates.txt, and the crates below it."""

    def __init__(self, line, known):
        said, _, used = line.partition(":")
        self.name, *words = said.split()
        self.line, self.is_static = " ".join(line.split()), "staticlib" in words
        self.folder, self.rlib = f"{TOP}/crates/{self.name}", f"{PROVED}/{self.name}.rlib"
        # (a line may stand before those of the crates that it uses)
        self.uses, self.known = used.split(), known

    def libraries(self):
        """The crates of the repository that it uses."""
        return [self.known[it] for it in self.uses if it in self.known]

    def below(self):
        found = []
        for it in self.libraries():
            found += [other for other in [*it.below(), it] if other not in found]
        return found

    def files(self):
        """The files that a proof of it reads, beside its libraries."""
        found = []
        for part in ("src", "specs", "proofs"):
            for at, folders, files in os.walk(f"{self.folder}/{part}"):
                found += [f"{at}/{it}" for it in files if it.endswith((".rt", ".antt"))]
        return sorted(found)

    def lines(self):
        return sum(text_of(it).count(b"\n") for it in self.files())

    @functools.cache
    def sum(self):
        """The sum of all that its proof reads: its files, its line, and its libraries with theirs."""
        made = hashlib.sha256(self.line.encode())
        for it in self.files():
            made.update(f"\0{os.path.relpath(it, self.folder)}\0".encode() + text_of(it))
        for it in self.libraries():
            made.update(it.sum().encode())
        return made.hexdigest()

    def is_proved(self):
        """Whether the last run of `tools/gate/prove-all` proved it as it is."""
        return text_of(f"{PROVED}/{self.name}.sum").decode() == self.sum()

    def stale_below(self):
        """The name of a crate below it that out/proved doesn't have as it is, if there is one."""
        return next((it.name for it in self.below() if not (it.is_proved() and os.path.isdir(it.rlib))), None)

    def words(self):
        """What `rattle check` is told of it, over the libraries of out/proved and of the kit."""
        words = ["--crate-name", self.name, f"src/{'main' if os.path.isfile(f'{self.folder}/src/main.rt') else 'lib'}.rt"]
        for it in ["std", *(it for it in self.uses if it not in self.known)]:
            words += ["--extern", f"{it}={KIT}/rlibs/{it}.rlib"]
        for it in self.libraries():
            words += ["--extern", f"{it.name}={it.rlib}"]
        words += ["-L", f"dependency={KIT}/rlibs", "-L", f"dependency={PROVED}", "--jobs", "1", "--links", f"{self.name}="]
        words += ["--antt-project", f"{KIT}/rattle/logic/antt-project.json", "--logic-built", f"{KIT}/logic_built"]
        return words + ["--crate-type", "staticlib"] * self.is_static


def text_of(path):
    """The bytes of a file, none where it isn't there."""
    try:
        with open(path, "rb") as file:
            return file.read()
    except OSError:
        return b""


def crates():
    """The crates of crates.txt, in its order."""
    known = {}
    with open(f"{TOP}/crates.txt", encoding="utf-8") as lines:
        for line in lines:
            line = line.partition("#")[0].strip()
            if line:
                crate = Crate(line, known)
                known[crate.name] = crate
    return [*known.values()]
