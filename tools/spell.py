#!/usr/bin/env python3
"""Brings the repository's own definitions and lemmas to the kit's spelling: words in snake case, types in camel case.

usage: python3 tools/spell.py [FOLDER] [--names]

FOLDER (the top of a checkout, here by default) is rewritten in place. Every name that an .antt file of crates/ defines is
turned where an .antt file, a clause or a ghost item speaks of it, and where a page of docs/ or the README names it between
backticks. Functions of src/, names that the kit makes (goals,
places, fields of a step), strings, inputs and outputs are left. --names prints each old name with its new one, and
changes nothing. A name that would fall together with another is in APART, with the word that it gets instead.
"""

import os
import re
import sys

# names whose plain respelling is taken in the same scope by a function of src/ or by another definition
APART = {
    "checkOf": "check_for",
    "leafWord": "leaf_doubleword",
    "pointerWord": "pointer_doubleword",
    "lowTable": "low_table_of",
    "tableBelow": "table_below_of",
    "frame-of": "frame_is",
    "row-at": "row_at_is",
    "found-by": "found_by_is",
    "leaf-of": "leaf_of_is",
    "leaf-put": "leaf_put_is",
    "served-by": "served_by_is",
    "tried-at": "tried_at_is",
    "tried-by": "tried_by_is",
}

DEFINES = re.compile(
    r"^\s*(?:(?:pub|abbrev|unfoldable|private|record|data|let)\s+)*([^\s(){}\[\];:.,]+)(?:\s+(?:\([^()]*\)|\{[^{}]*\}))*\s*:(?:\s|$)"
)
TOKEN = re.compile(r"[^\s(){}\[\];:,.\"`·]+")


def files(top, *endings):
    for folder, dirs, names in os.walk(os.path.join(top, "crates")):
        dirs[:] = sorted(d for d in dirs if d != "out")
        for name in sorted(names):
            if name.endswith(endings):
                yield os.path.join(folder, name)


def read(path):
    with open(path, encoding="utf-8") as f:
        return f.read()


def respelled(name):
    """The kit's spelling of a name, or the name itself where it has it."""
    if name in APART:
        return APART[name]
    if not re.search(r"[a-z0-9′'][-A-Z]|-[a-z0-9A-Z]|^[a-z].*[A-Z]", name):
        return name
    if name[0].isupper():
        return "".join(part[0].upper() + part[1:] for part in name.split("-") if part)
    return re.sub(r"(?<=[a-z0-9])([A-Z])", lambda m: "_" + m.group(1).lower(), name).replace("-", "_")


def brought_in(text):
    """The names that a file takes from the kit's library: those are not ours to turn."""
    found = set()
    for m in re.finditer(r"use\s+(Rattle\.(?:std|core)[^\s{;]*)(?:\.\{([^}]*)\})?", text):
        found.update(re.findall(r"[^\s,]+", m.group(2) or ""))
    return found


def names(top):
    ours, theirs = set(), set()
    for path in files(top, ".antt"):
        text = read(path)
        theirs |= brought_in(text)
        for line in text.splitlines():
            m = DEFINES.match(line.split("--")[0] if line.lstrip().startswith("--") else line)
            if m and re.search(r":\s*(?:goal|need)\.", line):
                theirs.add(m.group(1))
            elif m:
                ours.add(m.group(1))
    return {n: respelled(n) for n in sorted(ours - theirs) if respelled(n) != n}


def turned(text, table, comment):
    """A file's text with every name turned; in a comment, and in a string of the code, a hyphened word is left."""
    lines = []
    for line in text.split("\n"):
        at = line.find(comment)
        body, tail = (line, "") if at < 0 else (line[:at], line[at:])
        parts = re.split(r'("(?:[^"\\]|\\.)*")', body)
        body = "".join(p if p.startswith('"') else TOKEN.sub(lambda m: table.get(m.group(0), m.group(0)), p) for p in parts)
        tail = TOKEN.sub(lambda m: m.group(0) if "-" in m.group(0) else table.get(m.group(0), m.group(0)), tail)
        tail = re.sub(r"`[^`]+`", lambda m: TOKEN.sub(lambda t: table.get(t.group(0), t.group(0)), m.group(0)), tail)
        lines.append(body + tail)
    return "\n".join(lines)


def page(text, table):
    return re.sub(r"`[^`\n]+`", lambda m: TOKEN.sub(lambda t: table.get(t.group(0), t.group(0)), m.group(0)), text)


def main():
    args = [a for a in sys.argv[1:] if a != "--names"]
    top = args[0] if args else "."
    table = names(top)
    if "--names" in sys.argv:
        for old, new in table.items():
            print(old, new)
        return
    changed = 0
    pages = [os.path.join(top, p) for p in ["README.md"] + ["docs/" + d for d in sorted(os.listdir(os.path.join(top, "docs")))] if p.endswith(".md")]
    for path in list(files(top, ".antt", ".rt")) + pages:
        old = read(path)
        new = page(old, table) if path.endswith(".md") else turned(old, table, "--" if path.endswith(".antt") else "//")
        if new != old:
            with open(path, "w", encoding="utf-8") as f:
                f.write(new)
            changed += 1
    print(f"spell: {len(table)} names, {changed} files")


if __name__ == "__main__":
    main()
