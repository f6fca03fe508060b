#!/usr/bin/env python3
"""Brings the repository's own definitions and lemmas to the kit's spelling, by the table spelling.tsv beside it: words in snake case, types in camel case.
Run once, at the top, after the kit's port.py. A name that joins the names of two definitions keeps its hyphen. Functions of src/, strings and comments in English stay."""
import os
import re

HERE = os.path.dirname(os.path.realpath(__file__))
ROOT = os.path.dirname(HERE)
with open(os.path.join(HERE, "spelling.tsv"), encoding="utf-8") as f:
    TABLE = dict(line.rstrip("\n").split("\t") for line in f)
WORD = re.compile(r'[^\s(){}.,;@"«»`]+')
FIELD = re.compile(r"^ +(?:(?:abbrev|unfoldable|pub) +)*([^\s:(){}.,;]+) (?:[({][^\n]*[)}] )*: ", re.M)


def texts(top, ends):
    for folder, dirs, files in os.walk(os.path.join(ROOT, top)):
        dirs[:] = sorted(d for d in dirs if d not in ("out", ".git"))
        for name in sorted(files):
            if name.endswith(ends):
                yield os.path.join(folder, name)


def read(path):
    with open(path, encoding="utf-8") as f:
        return f.read()


# names that are declared inside a record, a module or a definition: they turn behind a dot too
INSIDE = set()
for p in texts("crates", ".antt"):
    INSIDE.update(FIELD.findall(read(p)))


CRATES = set(os.listdir(os.path.join(ROOT, "crates")))
USE = re.compile(r"^(?:ghost )?use ([^\s{;]+?)\.?(?:\{([^}]*)\})?;?(?: as .*)?$", re.M)


def foreign(text):
    """The names that a file imports from a library of the kit: they stay in it."""
    out = set()
    for path, names in USE.findall(text):
        parts = path.split(".")
        if not (parts[0] == "Rattle" and len(parts) > 1 and parts[1] in CRATES):
            out.update(WORD.findall(names) if names else parts[-1:])
    return out


def turned(text, hyphens, stay=()):
    """The text with each name of the table turned; where hyphens is false, names with a hyphen stay, since they may be English."""

    def one(m):
        old = m[0]
        new = TABLE.get(old)
        if new is None or old in stay or ("-" in old and not hyphens):
            return old
        before = text[: m.start()]
        if "-" in old and before.endswith("."):
            head = WORD.findall(before[before.rfind("\n") + 1 :])
            owner = head[-1] if head else ""
            if not (owner[:1].isupper() or owner in TABLE or owner in TABLE.values() or old in INSIDE):
                return old
        return new

    return WORD.sub(one, text)


def antt(text):
    out, stay = [], foreign(text)
    for line in text.split("\n"):
        at = line.find("-- ")
        cut = at if at == 0 or (at > 0 and line[at - 1] == " ") else len(line)
        out.append(turned(line[:cut], True, stay) + turned(line[cut:], False, stay))
    return "\n".join(out)


def rt(text):
    out, stay = [], foreign(text)
    for line in text.split("\n"):
        at = line.find("//")
        cut = at if at >= 0 else len(line)
        out.append(turned(line[:cut], '"' not in line, stay) + turned(line[cut:], False, stay))
    return "\n".join(out)


def edit(text):
    return "\n".join(turned(line, line.startswith(("old:", "new:"))) for line in text.split("\n"))


def page(text):
    return re.sub(r"`[^`\n]+`", lambda m: turned(m[0], True), turned(text, False))


for top, ends, turn in (("crates", ".antt", antt), ("crates", ".rt", rt), ("crates", ".edit", edit), ("docs", ".md", page)):
    for p in texts(top, ends):
        old = read(p)
        new = turn(old)
        if new != old:
            with open(p, "w", encoding="utf-8") as f:
                f.write(new)
