#!/usr/bin/env python3
"""Brings this repository's own names in specs/, proofs/, contracts, edits and pages to today's spelling: types in upper camel case, all else in snake case.

usage: python3 tools/respell.py      once, at the top, after /opt/rattle/port/port.py

A name is one of this repository's where no line imports it from a library. In a function's folder of proofs/ only names that stand in specs/ or in lemma
files, and names of functions of src/, are respelt: the others there are made by the check. Strings of the code keep their text. Two names that fall together
get names of their own, in APART.
"""
import collections
import os
import re
import sys

TOKEN = re.compile(r"(?<![\w'\-◌])[^\W\d_][\w']*(?:-[\w']+)+(?![\w']|\.txt)")
# Names that would fall together with a library's or another of this repository's.
APART = {"bit-and": "bit_of_and", "bit-or": "bit_of_or"}
# Names as port.py wrote them, and as they are.
WRITTEN = {"Laid_out": "LaidOut", "get_d_part": "get_or_part"}


def camel(name):
    first, *rest = name.split("-")
    return first + "".join(part[:1].upper() + part[1:] for part in rest)


def respelt(name):
    if name in APART:
        return APART[name]
    if name[0].isupper():
        return camel(name)
    return name.replace("getD", "get_or").replace("-", "_")


def files(*endings):
    for folder, dirs, names in os.walk("crates"):
        dirs[:] = sorted(d for d in dirs if d != "out")
        for name in sorted(names):
            if name.endswith(endings):
                yield os.path.join(folder, name)


def read(path):
    with open(path, encoding="utf-8") as f:
        return f.read()


def code(line):
    return re.sub(r"(^|\s)--.*", "", line)


def imported(crates):
    """The names with a dash that some file takes from a library."""
    names = set()
    for path in files(".antt", ".rt"):
        for line in read(path).split("\n"):
            m = re.match(r"\s*(?:ghost )?(?:pub )?use ([\w.]+)\.\{(.*)\}", line)
            if m and not (m.group(1).startswith("Rattle.") and m.group(1).split(".")[1] in crates):
                names.update(TOKEN.findall(m.group(2)))
    return names


def main():
    crates = set(os.listdir("crates"))
    library = imported(crates)
    own = set()
    for path in files(".antt"):
        if re.search(r"/(specs|proofs)$", os.path.dirname(path)):
            for line in read(path).split("\n"):
                own.update(TOKEN.findall(code(line)))
    own -= library
    for path in files(".rt"):
        for name in re.findall(r"\bfn (\w+)", read(path)):
            if "_" in name and name.replace("_", "-") not in library:
                own.add(name.replace("_", "-"))

    back = collections.defaultdict(set)
    for name in own:
        back[respelt(name)].add(name)
    plain = set()
    for path in files(".antt"):
        if re.search(r"/(specs|proofs)$", os.path.dirname(path)):
            for line in read(path).split("\n"):
                m = re.match(r"\s*(?:(?:unfoldable|abbrev) )?(?:pub )?(?:record |data )?([^\W\d_][\w']*) :", line)
                if m:
                    plain.add(m.group(1))
    for to, names in sorted(back.items()):
        if len(names) > 1 or to in plain:
            print("fall together:", to, sorted(names))

    def turn(text):
        for old, new in WRITTEN.items():
            text = re.sub(rf"\b{old}\b", new, text)
        return TOKEN.sub(lambda m: respelt(m.group(0)) if m.group(0) in own else m.group(0), text)

    def turn_code(text):
        # Strings and characters of the code stay.
        return "".join(piece if i % 2 else turn(piece) for i, piece in enumerate(re.split(r'(b?"(?:[^"\\]|\\.)*")', text)))

    changed = 0
    pages = ["README.md"] + [os.path.join("docs", n) for n in sorted(os.listdir("docs")) if n.endswith(".md") and not n.startswith("PORT")]
    for path in [*files(".antt", ".rt", ".edit"), *pages]:
        before = read(path)
        if path.endswith(".antt"):
            after = turn(before)
        elif path.endswith(".md"):
            after = re.sub(r"`[^`\n]+`", lambda m: turn(m.group(0)), before)
        else:
            after = turn_code(before)
        if after != before:
            changed += 1
            with open(path, "w", encoding="utf-8") as f:
                f.write(after)
    print(f"{len(own)} names, {changed} files")
    return 0


if __name__ == "__main__":
    sys.exit(main())
