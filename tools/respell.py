#!/usr/bin/env python3
"""Respells the repository's own names of specs/ and proofs/: functions, lemmas, fields and constructors are in snake case.

usage: python3 tools/respell.py [--dry]        in the repository, after port.py, once

What stands in a string is left as it is.
A name that a file imports from another library keeps its spelling, and so do functions of src/, types and modules, and
the names that the check generates (they stand in proofs/F/ alone, and go with the old proofs there).
Where a lemma would get the name of a definition or of a function of src/, it ends in _lem.
"""

import os
import re
import sys

TOKEN = re.compile(r"[A-Za-z_][\w'₀-₉⁻¹]*(?:-[\w'₀-₉⁻¹]+)*")
USE = re.compile(r"^(?:ghost )?(?:pub )?use ([\w.·'-]+)\.\{([^}]*)\}", re.M)
STRING = re.compile(r'("(?:[^"\\]|\\.)*")')
CAMEL = re.compile(r"[a-z][a-z0-9]*[A-Z]")
ROOM = re.compile(r"crates/[^/]*/(specs|proofs)/[^/]*\.antt$")  # a file of definitions or lemmas, and no proof of one function


def files(root="crates"):
    for folder, dirs, names in os.walk(root):
        dirs[:] = sorted(d for d in dirs if d != "out")
        for name in sorted(names):
            if name.endswith((".antt", ".rt")):
                yield os.path.join(folder, name)


def crates():
    with open("crates.txt") as f:
        return {line.split(":")[0].split()[0] for line in f if line.strip() and not line.startswith("#")}


def is_own(module, own):
    return any(module == "Rattle." + c or module.startswith("Rattle." + c + ".") for c in own)


def imported(text, own):
    """The names that a file takes from other libraries."""
    names = set()
    for module, items in USE.findall(text):
        if not is_own(module, own):
            for item in items.split(","):
                names |= set(item.strip().split(" as "))
    return names


def snake(name):
    name = re.sub(r"(?<=[a-z0-9])([A-Z])", r"_\1", name)
    return name.replace("-", "_").lower()


def code(text):
    return STRING.sub("", re.sub(r"--(?= |$).*", "", text, flags=re.M))


def names(own):
    """Each name to be respelled, with its new spelling."""
    kit, found, fns = set(), set(), set()
    for path in files():
        with open(path, encoding="utf-8") as f:
            text = f.read()
        kit |= imported(text, own)
        if path.endswith(".rt"):
            fns |= set(re.findall(r"\bfn (\w+)", text))
            found |= {w for w in TOKEN.findall(text) if CAMEL.match(w)}
        else:
            words = TOKEN.findall(USE.sub("", code(text)))
            found |= {w for w in words if ROOM.search(path) or CAMEL.match(w)}
    spell = {}
    for name in found - kit:
        if name[0].islower() and (CAMEL.match(name) or "-" in name):
            spell[name] = snake(name)
    taken = fns | {spell.get(n, n) for n in found if "-" not in n}
    for name, new in spell.items():
        if "-" in name and new in taken:
            spell[name] = new + "_lem"
    return spell, found, kit


def apart(spell, found, kit):
    """Says which names fall together."""
    by = {}
    for name in found | set(spell):
        by.setdefault(spell.get(name, name), set()).add(name)
    for new, olds in sorted(by.items()):
        if len(olds) > 1:
            print("together:", new, sorted(olds))
        elif new in kit and olds != {new}:
            print("of the kit:", new, sorted(olds))


def respelled(text, path, spell, own):
    keep = imported(text, own)

    def one(match):
        name = match.group(0)
        if name in keep or name not in spell:
            return name
        if "-" in name and not dashes:
            return name
        if match.string[: match.start()].endswith("."):  # a field
            return snake(name)
        return spell[name]

    out = []
    for line in text.split("\n"):
        mark = "//" if path.endswith(".rt") else "--"
        at = re.search(r"(^|\s)" + mark + r"( |$)", line)
        head, tail = (line[: at.start()], line[at.start() :]) if at else (line, "")
        use = USE.match(head)
        if use and not is_own(use.group(1), own):
            out.append(line)
            continue
        dashes = path.endswith(".antt")
        head = "".join(part if part.startswith('"') else TOKEN.sub(one, part) for part in STRING.split(head))
        dashes = False
        out.append(head + TOKEN.sub(one, tail))
    return "\n".join(out)


def main():
    own = crates()
    spell, found, kit = names(own)
    apart(spell, found, kit)
    if "--dry" in sys.argv:
        for name in sorted(spell):
            print(name, spell[name])
        return
    for path in files():
        with open(path, encoding="utf-8") as f:
            text = f.read()
        new = respelled(text, path, spell, own)
        if new != text:
            with open(path, "w", encoding="utf-8") as f:
                f.write(new)


if __name__ == "__main__":
    main()
