#!/usr/bin/env python3
"""Spells the repository's own definitions and lemmas as Rattle's library spells its names.

Run at the top, once, after port.py:  python3 tools/respell.py

A definition, a lemma, a constructor or a field is a word in snake case. A definition whose value is a fact, one of
`Type 0`, is in upper camel case. A dash stays where it joins the names of two definitions, as in `length-renewed`.
Functions of src/, exported names, strings, inputs and outputs keep their names: only names that some file of specs/ or
proofs/ defines are turned, in specs/, in proofs/, and in the clauses of src/.
It stops, and writes nothing, where two names would fall together.
"""
import glob
import re
import sys

WORD = re.compile(r"[A-Za-zℕℤ_][\w'ℕℤ-]*")
DEFINES = re.compile(r"^(\s*)(?:(?:abbrev|unfoldable)\s+)?(?:pub\s+)?([^\s:({]+)\s*(?:\{[^}]*\}\s*)*:\s(.*)$")
# the library's functions whose names stand in names of lemmas here
LIBRARY = {"append", "drop", "length", "set", "take"}

# lemmas that would otherwise fall together with a definition
APART = {"value-at": "value_in_place", "listed-at": "listed_in_place", "written-by": "written_as_held"}

# names that an import gives to another
ALIASES = {"standsIn": "stands_in", "listNumberOf": "list_number_of"}


def files():
    found = glob.glob("crates/*/specs/*.antt") + glob.glob("crates/*/proofs/**/*.antt", recursive=True)
    return sorted(f for f in found if "/out/" not in f)


def is_answer(path):
    return re.search(r"/proofs/.*/", path) is not None


def defined():
    """Each name that is defined, at the left margin or inside a `data`, a record or a `where`, with the type that its
    first line shows."""
    names = {}
    for path in files():
        if is_answer(path):
            continue
        for line in open(path):
            if line.lstrip().startswith("--"):
                continue
            found = DEFINES.match(line)
            if found and WORD.fullmatch(found.group(2)):
                kind = "inner" if found.group(1) else "definition" if "/specs/" in path else "lemma"
                names.setdefault(found.group(2), set()).add((kind, found.group(3).strip()))
    return names


def snake(word):
    return re.sub(r"(?<=[a-z0-9])(?=[A-Z])|(?<=[A-Z])(?=[A-Z][a-z])", "_", word).lower()


def joined(name, words):
    parts = name.split("-")
    text = snake(parts[0])
    for before, part in zip(parts, parts[1:]):
        text += ("-" if before in words and part in words else "_") + snake(part)
    return text


def is_fact(types):
    return any(re.search(r"(→|^)\s*Type 0$", t) for kind, t in types if kind != "inner")


def table():
    names = defined()
    words = {n for n, types in names.items() if "-" not in n and any(kind == "definition" for kind, _ in types)} | LIBRARY
    turned = dict(ALIASES)
    for name, types in names.items():
        if name[0].isupper():
            continue
        if name in APART:
            new = APART[name]
        elif is_fact(types) and "-" not in name and "_" not in name:
            new = name[0].upper() + name[1:]
        else:
            new = joined(name, words)
        if new != name:
            turned[name] = new

    def places(name):
        return {kind == "inner" for kind, _ in names.get(name, [("alias", "")])}

    for old, new in turned.items():
        others = [n for n in names if n != old and turned.get(n, n) == new and places(n) & places(old)]
        if others:
            sys.exit(f"respell: {old} and {', '.join(others)} would both be {new}; nothing is written")
    inner = {name for name, types in names.items() if any(kind == "inner" for kind, _ in types)}
    return turned, inner


def respell(text, turned, inner):
    """Behind a dot only a field is turned: other names there are those that Rattle makes for a function's steps."""

    def word(found):
        name = found.group(0)
        behind_dot = text[found.start() - 1 : found.start()] == "."
        return name if behind_dot and name not in inner else turned.get(name, name)

    return WORD.sub(word, text)


def code(text, turned):
    """In a source file only a name with a capital inside is turned, since none of Rust's own has one."""
    return re.sub(r"[a-z]\w*", lambda m: turned.get(m.group(0), m.group(0)) if re.search("[A-Z]", m.group(0)) else m.group(0), text)


def main():
    turned, inner = table()
    for path in files():
        text = open(path).read()
        lines = []
        for line in text.split("\n"):
            comment = re.search(r"(^|\s)--(\s|$)", line)
            cut = comment.start() if comment else len(line)
            lines.append(respell(line[:cut], turned, inner) + line[cut:])
        new = "\n".join(lines)
        if new != text:
            open(path, "w").write(new)
    for path in sorted(glob.glob("crates/*/src/**/*.rt", recursive=True)):
        text = open(path).read()
        new = code(text, turned)
        if new != text:
            open(path, "w").write(new)
    for old, new in sorted(turned.items()):
        print(f"{old} {new}")


main()
