#!/usr/bin/env python3
"""Respells the repository's own definitions and lemmas: words in snake case, facts and records in camel case.

usage: python3 tools/respell.py      at the top of the repository, once, after the kit's port.py

A name that is given to a goal, a name of the library and a name of src/ are left as they are.
"""

import glob
import re

TOKEN = re.compile(r"[^\s(){};,.\"|\[\]«»`]+")
GIVEN = re.compile(r"^\s*(?:unfoldable |abbrev )*(?:pub )?(?:data |record |module )?([A-Za-z][^\s(){};,.\"|]*-[^\s(){};,.\"|]*) (?=[:{(])")
ALIAS = re.compile(r"\bas ([a-z]\w*-[\w-]*)\s*;?$")


def respelled(name):
    if name[0].isupper():
        return "".join(part[:1].upper() + part[1:] for part in name.split("-"))
    return name.replace("-", "_")


def code(line):
    """The line up to its comment, and the comment."""
    at = 0 if line.lstrip().startswith("--") else line.find(" -- ")
    return (line, "") if at < 0 else (line[:at], line[at:])


def definitions(paths):
    names = set()
    for path in paths:
        for line in open(path, encoding="utf-8"):
            text = code(line.rstrip("\n"))[0]
            alias = ALIAS.search(text)
            if alias:
                names.add(alias.group(1))
            given = GIVEN.match(text)
            if given and not re.search(r": goal\.\S+$", text):
                names.add(given.group(1))
    return names


def imported(paths):
    """The names that come from the library."""
    return {name for path in paths for line in open(path, encoding="utf-8") if line.startswith("use Rattle.std.") for name in TOKEN.findall(line)}


def turned(line, names):
    return TOKEN.sub(lambda m: respelled(m.group()) if m.group() in names else m.group(), line)


def main():
    antt = sorted(glob.glob("crates/*/specs/**/*.antt", recursive=True) + glob.glob("crates/*/proofs/**/*.antt", recursive=True))
    rust = sorted(glob.glob("crates/*/src/**/*.rt", recursive=True))
    names = definitions(antt) - imported(antt)
    taken = {m for p in antt for line in open(p, encoding="utf-8") for m in TOKEN.findall(code(line)[0])}
    for name in sorted(names):
        if respelled(name) in taken:
            print(f"falls together: {name} and {respelled(name)}")
    for path in antt + rust:
        old = open(path, encoding="utf-8").read()
        lines = []
        for line in old.split("\n"):
            if path.endswith(".rt"):
                lines.append(line if line.lstrip().startswith("//") else turned(line, names))
            else:
                text, comment = code(line)
                comment = re.sub(r"`([^`\s]+)`", lambda m: "`" + turned(m.group(1), names) + "`", comment)
                lines.append(turned(text, names) + comment)
        new = "\n".join(lines)
        if new != old:
            open(path, "w", encoding="utf-8").write(new)
    print(f"{len(names)} names respelled")


if __name__ == "__main__":
    main()
