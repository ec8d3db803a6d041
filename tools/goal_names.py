#!/usr/bin/env python3
"""Writes the names of goals and steps in proofs/F/ as today's Rattle makes them: a name from the source keeps its
underscores, and hyphens only join the parts.

usage: python3 tools/goal_names.py [ROOT]      once, at the top, after snake_names.py

An older name `c.if-writes-to` becomes `c.if-writes_to`, since src/ has a `writes_to`; `in-ok-x` becomes `in_ok-x`.
"""

import os
import re
import sys

WORD = re.compile(r"\b[A-Za-z]\w*_\w+\b")
STEP = re.compile(r"(?<![\w'])([A-Za-z][\w']*(?:-[\w']+)+)")
# identifiers of the library that this repository's proofs name
LIBRARY = "split_at from_be_bytes from_residual is_some is_none to_be_bytes from_fn copy_from_slice first_chunk is_empty".split()


def main():
    root = os.path.abspath(sys.argv[1] if len(sys.argv) > 1 else ".")
    words = set(LIBRARY)
    proofs = []
    ours = set()
    for folder, dirs, names in os.walk(os.path.join(root, "crates")):
        dirs[:] = sorted(d for d in dirs if d != "out")
        for name in sorted(names):
            path = os.path.join(folder, name)
            parts = os.path.relpath(path, os.path.join(root, "crates")).split(os.sep)
            if name.endswith(".rt"):
                with open(path, encoding="utf-8") as f:
                    words |= set(WORD.findall(f.read()))
            elif name.endswith(".antt") and parts[1] == "proofs" and len(parts) > 3:
                proofs.append(path)
    pairs = sorted(((w.replace("_", "-"), w) for w in words), key=lambda p: -len(p[0]))
    pairs += [("in-ok", "in_ok"), ("in-err", "in_err")]

    def turn(m):
        label = m.group(1)
        for old, new in pairs:
            label = re.sub(rf"(?<![\w']){re.escape(old)}(?![\w'])", new, label)
        return label

    count = 0
    for path in proofs:
        with open(path, encoding="utf-8") as f:
            text = f.read()
        out = []
        for line in text.split("\n"):
            out.append(line if line.lstrip().startswith(("--",)) else STEP.sub(turn, line))
        told = "\n".join(out)
        if told != text:
            count += 1
            with open(path, "w", encoding="utf-8") as f:
                f.write(told)
    print(f"{count} files")


if __name__ == "__main__":
    main()
