"""Takes the functions of a copy of a crate by their contracts, so that a check of some of them costs what these alone cost.

The files of src/ are in the layout of `rt fmt`, where the body of a function begins and ends at the indentation of its `fn`.
"""
import os
import re
import shutil

FUNCTION = re.compile(r'( *)(?:pub(?:\(\w+\))? )?(?:(?:const|unsafe|extern "C") )*fn (\w+)')
OWNER = re.compile(r"impl(?:<.*?>)? (\w+)[^{]* \{")
# Calls nothing, owns nothing, and has any type that a result may have.
BODY = "loop {}"
PROOF_FILES = ("Invariants.antt", "Answers.antt", "Proof.antt")
HOLE = """use Rattle.{crate}.proofs.{path}.Statement.{{statement}}

pub {name}_spec : {{M : Type 1}} → statement M
{name}_spec = ?
"""


class Item:
    """A function that is no trait's: its path below the crate, and where it stands in a file's lines."""

    def __init__(self, path, indent, first, body, last):
        self.path, self.indent, self.first, self.body, self.last = path, indent, first, body, last

    def text(self, lines):
        return "\n".join(lines[self.first : self.last + 1])

    def calls_itself(self, lines):
        return re.search(rf"\b{self.path[-1]}\(", "\n".join(lines[self.body : self.last])) is not None


def items_of(lines, module):
    """Returns the functions of a source file that have lines of their own, but for those of traits."""
    items, at, owner = [], 0, ""
    while at < len(lines):
        if lines[at][:1] not in (" ", ")", "{", ""):
            found = OWNER.match(lines[at])
            owner = found[1] if found and " for " not in lines[at] else ""
        found = FUNCTION.match(lines[at])
        ends = body_of(lines, at, found[1]) if found and bool(found[1]) == bool(owner) else None
        if ends:
            first = at
            while lines[first - 1].startswith(f"{found[1]}#["):
                first -= 1
            items.append(Item([*module, *([owner] if owner else []), found[2]], found[1], first, *ends))
            at = ends[1]
        at += 1
    return items


def body_of(lines, at, indent):
    """Returns the first line within the body of the function that begins at a line, and the last line of the function.

    Behind the last line is the first one of a body with nothing in it, as a law has it.
    """
    body = None
    for number in range(at, len(lines)):
        line = lines[number]
        if not line.startswith(indent) or line[len(indent) :][:1] in ("", " "):
            continue
        if line == f"{indent}}}":
            return body and (body, number)
        if line == f"{indent}{{}}":
            return number + 1, number
        if line.endswith((";", "}")):
            return None
        if line.endswith("{"):
            body = number + 1
    return None


def module_of(folder, path):
    """Returns the path of the module that a source file has."""
    module = os.path.relpath(path, f"{folder}/src").removesuffix(".rt").split("/")
    return [] if module in (["lib"], ["main"]) else module


def files_of(folder):
    """Gives each file of src/, its lines and its functions."""
    for at, _, files in os.walk(f"{folder}/src"):
        for file in sorted(files):
            path = f"{at}/{file}"
            with open(path, encoding="utf-8") as text:
                lines = text.read().split("\n")
            yield path, lines, items_of(lines, module_of(folder, path))


def take(folder, crate, kept, twins):
    """Gives each function but the kept ones a body that calls nothing, and a hole as its proof.

    Behind it come its twins, which have the same contract and the same proof: a twin is the path of a function, the name of the
    twin, and the text that the function is to have.
    """
    names = {it.rpartition("::")[2] for it in kept}
    for at, folders, _ in os.walk(f"{folder}/proofs"):
        # (a cycle of calls is one no more)
        for it in [it for it in folders if it.startswith("+") and it[1:] not in names]:
            shutil.rmtree(f"{at}/{it}")
            folders.remove(it)
    for path, lines, items in files_of(folder):
        made, at = [], 0
        for item in items:
            if "::".join(item.path) in kept:
                continue
            made += lines[at : item.body]
            if item.body <= item.last:
                made += [f"{item.indent}    {BODY}", lines[item.last]]
            for _, name, text in [it for it in twins if it[0] == "::".join(item.path)]:
                made.append(re.sub(rf"\bfn {item.path[-1]}\b", f"fn {name}", text, count=1))
                copy_proof(folder, crate, item.path, name)
            put_hole(folder, crate, item.path)
            at = item.last + 1
        with open(path, "w", encoding="utf-8") as text:
            text.write("\n".join([*made, *lines[at:]]))


def copy_proof(folder, crate, path, name):
    """Copies the files of a function's proof to a twin."""
    old, new = f"{folder}/proofs/{'/'.join(path)}", f"{folder}/proofs/{'/'.join([*path[:-1], name])}"
    for file in PROOF_FILES:
        if os.path.exists(f"{old}/{file}"):
            os.makedirs(new, exist_ok=True)
            with open(f"{old}/{file}", encoding="utf-8") as text:
                said = text.read()
            own = f"Rattle.{crate}.proofs.{'.'.join(path)}."
            with open(f"{new}/{file}", "w", encoding="utf-8") as text:
                text.write(said.replace(own, f"{own.removesuffix(f'{path[-1]}.')}{name}."))


def put_hole(folder, crate, path):
    """Writes a hole as the proof of a function."""
    at = f"{folder}/proofs/{'/'.join(path)}"
    os.makedirs(at, exist_ok=True)
    for it in PROOF_FILES:
        if os.path.exists(f"{at}/{it}"):
            os.remove(f"{at}/{it}")
    with open(f"{at}/Proof.antt", "w", encoding="utf-8") as text:
        text.write(HOLE.format(crate=crate, path=".".join(path), name=path[-1]))
