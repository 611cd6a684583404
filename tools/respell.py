#!/usr/bin/env python3
"""Respells the repository's own definitions and lemmas as today's Rattle spells names: words in snake case, types and modules in camel
case, a dash only between two names that stand for definitions. Run once, at the top, on what port.py wrote.

usage: python3 tools/respell.py [--dry]     (--dry: prints the table and what falls together, and writes nothing)

Names of Rust (src/), of the library and of what Rattle makes for a function's proof stay. Strings stay.
"""

import os
import re
import sys

# names whose parts are library words that port.py respelled
WHOLE = {"getD-table": "get_or-table"}
# names given by `as`, and constructors that stand several on a line
ALIASES = ("lawHeld", "lawTaken", "lawSent", "lawLeft", "heldFor", "endedWith", "sentOnChannel", "at-spent", "at-step", "at-stuck")
# fields and constructors of specs/ may have a function's name
FIELDS = {"no-channel", "no-task", "under-way", "receive-record", "receive-barrier", "send-barrier", "steps-done"}
# lemmas that have, in these files, the name that a definition gets here
MOVED = {
    "count_at": ("crates/drain/proofs/Asking.antt", "crates/drain/proofs/Steps.antt"),
    "go_on": ("crates/promises/proofs/Twins.antt",),
    "steps-done": ("crates/promises/proofs/Grows.antt", "crates/promises/proofs/Silenced.antt"),
}
# list words of the library that a lemma's name may end in after a dash
LIST_WORDS = {"append", "nil", "cons", "map", "concat", "length", "sum"}
NAME = r"[^\s(){};,.\"`:←→]+"
DECLARED = re.compile(rf"^\s*(?:unfoldable |abbrev )?(?:pub )?(?:(?:record|data|module) )?({NAME})(?:\s*[({{].*)? :(?: |$)")
CONSTRUCTOR = re.compile(rf"^\s+({NAME}) :(?: |$)")
TOKEN = re.compile(r"(?<![^\s(){};,.\"`:|@])[^\s(){};,.\"`:|@]+")


def files(ending):
    for folder, dirs, names in os.walk("crates"):
        dirs[:] = sorted(d for d in dirs if d != "out")
        for name in sorted(names):
            if name.endswith(ending):
                yield os.path.join(folder, name)


def is_shared(path):
    """A file of definitions or lemmas, and not the proof of one function."""
    parts = path.split("/")
    return parts[2] == "specs" or (parts[2] == "proofs" and len(parts) == 4)


def snake(name):
    """camelCase to camel_case; a fact inside a name keeps its capital: `Room-is`."""
    return re.sub(r"(?<=[a-z0-9])([A-Z])", lambda m: "_" + m[1].lower(), name) if name[0].islower() else name


def declared():
    shared, rust = set(), set()
    for path in files(".antt"):
        if is_shared(path):
            for line in open(path, encoding="utf8"):
                if not line.lstrip().startswith("--") and (m := DECLARED.match(line)):
                    shared.add(m[1])
    for path in files(".rt"):
        rust |= set(re.findall(r"\b(?:fn|struct|enum|mod|const)\s+(\w+)", open(path, encoding="utf8").read()))
    return shared, rust


def library():
    """What the repository imports from elsewhere."""
    own, found = set(os.listdir("crates")), set()
    for ending in (".antt", ".rt"):
        for path in files(ending):
            for module, names in re.findall(r"^\s*(?:ghost )?(?:pub )?use ([^\s{]+)\.\{(.*)\}", open(path, encoding="utf8").read(), re.M):
                if not (module.startswith("Rattle.") and module.split(".")[1] in own):
                    found |= {n.split(" as ")[0].strip() for n in names.split(",")}
    return found


def table():
    shared, rust = declared()
    taken = library()
    stand = {snake(n) for n in shared if "-" not in n} | rust | LIST_WORDS
    to = {}
    for name in sorted(shared - taken):
        if name in WHOLE:
            to[name] = WHOLE[name]
            continue
        if "-" not in name:
            new = snake(name)
        else:
            parts = [snake(p) for p in name.split("-")]
            new = parts[0]
            # a dash stays where what stands on both sides of it is the name of a definition
            for k in range(1, len(parts)):
                left, right = "_".join(parts[:k]), "_".join(parts[k:])
                new += ("-" if left in stand and right in stand and right in LIST_WORDS else "_") + parts[k]
        if new != name:
            to[name] = new
    to |= {name: snake(name).replace("-", "_") for name in ALIASES}
    # a lemma that would have its function's name
    functions = {t for n, t in to.items() if "-" not in n} | {n for n in shared if "_" in n and "-" not in n}
    for name, new in to.items():
        if "-" in name and new in functions and name not in FIELDS:
            to[name] = new + "_lem"
    return to, shared, rust, taken


def turn(text, to, path):
    def one(m):
        word = m[0]
        if word not in to:
            return word
        # what Rattle makes for a function's proof is reached by a dot from its context
        if "-" in word and not is_shared(path) and m.start() and text[m.start() - 1] == "." and re.search(r"[\w)]$", text[: m.start() - 1]):
            return word
        return to[word]

    return TOKEN.sub(one, text)


def turn_rust(text, to):
    """Only lower camel case, which Rust code has not, and outside strings."""
    camel = {n: t for n, t in to.items() if "-" not in n}
    parts = re.split(r'(b?"(?:[^"\\]|\\.)*")', text)
    return "".join(p if k % 2 else re.sub(r"\b[a-z]\w*\b", lambda m: camel.get(m[0], m[0]), p) for k, p in enumerate(parts))


def main(dry):
    to, shared, rust, taken = table()
    used = {}
    for path in files(".antt"):
        for word in TOKEN.findall(open(path, encoding="utf8").read()):
            used.setdefault(word, set()).add(path)
    back = {}
    for old, new in to.items():
        back.setdefault(new, []).append(old)
    for new, olds in sorted(back.items()):
        if len(olds) > 1 or new in used or new in taken:
            print("falls together:", " ".join(olds), "->", new, "in", *sorted(used.get(new, ()))[:3], "library" if new in taken else "")
    if dry:
        for old, new in to.items():
            print(old, new)
        return
    for name, paths in MOVED.items():
        for path in paths:
            text = open(path, encoding="utf8").read()
            lemma = re.compile(rf"(?<![\w.'-]){name}(?![\w'-])")
            open(path, "w", encoding="utf8").write(lemma.sub(name.replace("-", "_") + "_lem", text))
    for path in files(".antt"):
        text = open(path, encoding="utf8").read()
        if (new := turn(text, to, path)) != text:
            open(path, "w", encoding="utf8").write(new)
    for path in files(".rt"):
        text = open(path, encoding="utf8").read()
        if (new := turn_rust(text, to)) != text:
            open(path, "w", encoding="utf8").write(new)


if __name__ == "__main__":
    main("--dry" in sys.argv)
