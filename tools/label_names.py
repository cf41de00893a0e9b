#!/usr/bin/env python3
"""In functions' folders of proofs/: names that the check makes keep the spelling of names from the source (first_high-at, not first-high-at).

usage: python3 tools/label_names.py      once, at the top, after tools/respell.py
"""
import os
import re

TOKEN = re.compile(r"(?<![\w'\-◌])[^\W\d_][\w']*(?:-[\w'+]+)+")
MADE = ["in_ok", "in_err", "in_default", "In_ok", "In_err", "In_default", "from_residual", "type_inv", "invariant_of", "overflow_add", "overflow_sub", "overflow_mul", "overflow_cast", "overflow_shl", "overflow_shr", "overflow_step", "slice_bounds", "nonzero_div", "nonzero_rem"]


def files(ending):
    for folder, dirs, names in os.walk("crates"):
        dirs[:] = sorted(d for d in dirs if d != "out")
        for name in sorted(names):
            if name.endswith(ending):
                yield os.path.join(folder, name)


def main():
    names = set(MADE)
    for path in files(".rt"):
        with open(path, encoding="utf-8") as f:
            names.update(n for n in re.findall(r"\b[A-Za-z]\w*\b", f.read()) if "_" in n)
    library = set()
    for path in files(".antt"):
        with open(path, encoding="utf-8") as f:
            for line in f:
                m = re.match(r"\s*use ([\w.]+)\.\{(.*)\}", line)
                if m and not m.group(1).endswith(".Goals"):
                    library.update(TOKEN.findall(m.group(2)))
    pairs = sorted(((n.replace("_", "-"), n) for n in names), key=lambda p: -len(p[0]))

    def turn(m):
        token = m.group(0)
        if token in library:
            return token
        for dashed, name in pairs:
            token = re.sub(r"(?<![A-Za-z0-9_])" + re.escape(dashed) + r"(?![A-Za-z0-9_])", name, token)
        return token

    for path in files(".antt"):
        if re.search(r"/(specs|proofs)$", os.path.dirname(path)):
            continue
        with open(path, encoding="utf-8") as f:
            before = f.read()
        after = TOKEN.sub(turn, before)
        if after != before:
            with open(path, "w", encoding="utf-8") as f:
                f.write(after)


if __name__ == "__main__":
    main()
