#!/usr/bin/env python3
"""Turns the names of this repository's own definitions and lemmas to the library's spelling.

usage: python3 tools/respell.py [--list | --rest]     at the top of the repository, once, after the kit's port.py

A definition `heldAt` becomes `held_at`. A fact `Demand-2` becomes `Demand2`. In a lemma's name the dash behind the
longest definition's name that it begins with stays, as in `height-longest`, and any other dash becomes an underscore.
Then the names that stand inside a record or a module (the rest) get underscores throughout, as `on_the_walk`. Names that
the check makes (in proofs/F/) and names of src/ stay. --list prints the first pairs and changes nothing; --rest turns the rest
alone.
"""

import os
import re
import sys

WORD = re.compile(r"[^\s(){}\[\];:,.λ`\"«»]+")
DECLARED = re.compile(
    r"^(\s*)(?:(?:unfoldable|abbrev) )?(?:pub )?(?:(data|record) )?([^\s(){}\[\];:,.]+)"
    r"(?: \{[^}]*\})*(?: \([^)]*\))* :(?=\s)(.*(?:\n +.*)*)", re.M)
# Lemmas that already have the name which a definition of another spelling takes: they end in _lem.
LEMMAS = ("still_open", "is_leaf", "plain_form", "parent_row", "at_leaf", "take_left", "in-tree")


def files(*ends):
    for top in ("crates", "docs", "README.md", "second", "interface"):
        for folder, dirs, names in os.walk(top):
            dirs[:] = sorted(d for d in dirs if d not in ("out", "target"))
            for n in sorted(names):
                if n.endswith(ends):
                    yield os.path.join(folder, n)
        if os.path.isfile(top) and top.endswith(ends):
            yield top


def read(path):
    with open(path, encoding="utf-8") as f:
        return f.read()


def lemma_file(path):
    """A file of definitions or lemmas, and not of one function's proof."""
    parts = path.split(os.sep)
    return path.endswith(".antt") and len(parts) == 4 and parts[2] in ("specs", "proofs")


def declared():
    """Each name that a file of definitions or lemmas declares, and whether it is a fact or a type."""
    found = {}
    for p in files(".antt"):
        if lemma_file(p):
            for m in DECLARED.finditer(read(p)):
                kind, name, rest = m.group(2), m.group(3), m.group(4)
                is_type = bool(kind) or bool(re.search(r"→ Type( \S+)?\s*$", rest.split("\n" + name)[0].strip())) or bool(re.match(r"\s*Type", rest))
                found[name] = found.get(name, False) or is_type
    return found


def snake(name):
    return re.sub(r"(?<=[a-z0-9])([A-Z])", lambda m: "_" + m.group(1).lower(), name)


def lemma(name, heads):
    parts = name.split("-")
    for n in range(len(parts) - 1, 0, -1):
        head = "-".join(parts[:n])
        if head in heads:
            return respelt(head, heads) + "-" + "_".join(parts[n:])
    return "_".join(parts)


def respelt(name, heads):
    if re.match(r"[A-Z]", name):
        return name
    if "-" in name:
        return "-".join(snake(p) for p in lemma(name, heads).split("-"))
    return snake(name)


def pairs():
    names = declared()
    heads = {n for n in names if "-" not in n and len(n) > 1}
    taken = {snake(n) for n in names if "-" not in n}
    to = {n: snake(n.replace("-", "_")) + "_lem" for n in LEMMAS}
    for n, is_type in names.items():
        if n in to or not re.match(r"[A-Za-z]", n):
            continue
        if re.match(r"[A-Z]", n):
            new = "".join(p[:1].upper() + p[1:] for p in n.split("-")) if is_type else n
        else:
            new = respelt(n, heads)
            if "-" in n and new in taken:
                new += "_lem"
        if new != n:
            to[n] = new
    return to


def turn(text, to):
    return WORD.sub(lambda m: to.get(m.group(0), m.group(0)), text)


def quoted(text, to):
    """In a page only what stands between backquotes, or in a line of code."""
    text = re.sub(r"`[^`\n]+`", lambda m: turn(m.group(0), to), text)
    return re.sub(r"(?m)^    .*$", lambda m: turn(m.group(0), to), text)


LINE = re.compile(r"^\s*(?:(?:unfoldable|abbrev) )?(?:pub )?(?:(?:data|record|ruleset) )?([^\s(){}\[\];:,.]+)(?: \{[^}]*\})*(?: \([^)]*\))* (?::|=)(?=\s|$)")


def rest():
    """What the first pass did not see, each line by itself."""
    names = set()
    for p in files(".antt"):
        if lemma_file(p):
            names |= {m.group(1) for m in map(LINE.match, read(p).split("\n")) if m}
    heads = {n for n in names if "-" not in n and len(n) > 1}
    turned = {n: snake(n.replace("-", "_")) for n in names if re.match(r"[a-z]", n) and respelt(n, heads) != n}
    return {a: b for a, b in turned.items() if b not in names}


def turn_all(to):
    code = {a: b for a, b in to.items() if a not in LEMMAS}
    for p in files(".antt", ".rt", ".edit", ".md"):
        old = read(p)
        new = quoted(old, to) if p.endswith(".md") else turn(old, code if p.endswith(".rt") or "file: src/" in old else to)
        if new != old:
            with open(p, "w", encoding="utf-8") as f:
                f.write(new)


def main():
    if "--list" in sys.argv:
        for a, b in sorted(pairs().items()):
            print(a, b)
        return
    if "--rest" not in sys.argv:
        turn_all(pairs())
    turn_all(rest())


if __name__ == "__main__":
    main()
