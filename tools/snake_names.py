#!/usr/bin/env python3
"""Brings this repository's own definitions and lemmas to snake case, as today's Rattle spells them.

usage: python3 tools/snake_names.py [ROOT]      once, at the top, right after the kit's port.py

It gathers each name with a hyphen that a file of a crate's specs/ or proofs/ declares (proofs/F/ folders hold
generated goal names, which keep their hyphens), and writes it with underscores wherever it stands as a name: in .antt
files and, of .rt files, in `ghost use` lines and in clauses. A name after a dot is turned only where it is a field of a
record or the last part of an import's path; a generated step such as `c.if-place-ge-LIMIT` is never a name of ours.
A new name that a file had already for something else is reported and made different by OTHER.
"""

import os
import re
import sys

NAME = r"[A-Za-z_][\w'-]*"
DECLARED = re.compile(rf"^\s*(?:abbrev |unfoldable )*(?:pub )?(?:abbrev |unfoldable |data |record )*({NAME})\s*(?:\{{[^}}]*\}}\s*)?:")
FIELD = re.compile(rf"^\s+(?:pub )?({NAME})\s*:")
TOKEN = re.compile(rf"(?<![\w'.·-])({NAME})|\.({NAME})")
ALIAS = re.compile(rf"\bas ({NAME})")

# Names whose snake case a function of src/ in the same module has already.
OTHER = {}


def files(root):
    for folder, dirs, names in os.walk(os.path.join(root, "crates")):
        dirs[:] = sorted(d for d in dirs if d != "out")
        for name in sorted(names):
            if name.endswith((".antt", ".rt")):
                yield os.path.join(folder, name)


def is_ours(root, path):
    parts = os.path.relpath(path, os.path.join(root, "crates")).split(os.sep)
    return path.endswith(".antt") and (parts[1] == "specs" or (parts[1] == "proofs" and len(parts) == 3))


def gather(root):
    names, fields = set(), set()
    for path in files(root):
        with open(path, encoding="utf-8") as f:
            lines = f.read().split("\n")
        for line in lines:
            if path.endswith(".rt") and not line.startswith("ghost use"):
                continue
            if "use " in line:
                names |= {a for a in ALIAS.findall(line) if "-" in a}
        if not is_ours(root, path):
            continue
        inside = False
        for line in lines:
            if re.match(r"(abbrev )?(pub )?(record|data) ", line):
                inside = " where" in line
            elif line and not line[0].isspace():
                inside = False
            found = DECLARED.match(line)
            if found and "-" in found.group(1):
                (fields if inside and FIELD.match(line) else names).add(found.group(1))
    return names, fields


def turned(name):
    return OTHER.get(name, name.replace("-", "_"))


def turn_text(text, names, fields, after_dot):
    def one(m):
        plain, dotted = m.group(1), m.group(2)
        if plain is not None:
            return turned(plain) if plain in names or plain in fields else plain
        if dotted in fields or (after_dot and dotted in names):
            return "." + turned(dotted)
        return "." + dotted

    return TOKEN.sub(one, text)


def turn_antt(text, names, fields):
    out = []
    for line in text.split("\n"):
        code, mark, comment = line.partition("--")
        out.append(turn_text(code, names, fields, line.lstrip().startswith(("use ", "pub use "))) + mark + comment)
    return "\n".join(out)


def turn_rt(text, names, fields):
    """Only `ghost use` lines, clauses and ghost items: a clause runs from its keyword to the brace that closes it."""
    out, depth = [], 0
    for line in text.split("\n"):
        stripped = line.lstrip()
        starts = re.match(r"(ghost |requires\b|ensures\b)", stripped)
        if depth > 0 or starts:
            code, mark, comment = line.partition("//")
            out.append(turn_text(code, names, fields, stripped.startswith("ghost use")) + mark + comment)
            if not stripped.startswith("ghost use"):
                depth += code.count("{") - code.count("}")
        else:
            out.append(line)
    return "\n".join(out)


def main():
    root = os.path.abspath(sys.argv[1] if len(sys.argv) > 1 else ".")
    names, fields = gather(root)
    new = {turned(n): n for n in names | fields}
    if len(new) != len(names | fields):
        print("two names fall together", file=sys.stderr)
        raise SystemExit(2)
    count = 0
    for path in files(root):
        with open(path, encoding="utf-8") as f:
            text = f.read()
        for m in TOKEN.finditer(text):
            word = m.group(1)
            if word in new and "-" in new[word]:
                place = os.path.relpath(path, root)
                print(f"look: {place}:{text.count(chr(10), 0, m.start()) + 1}: {word} stood there before {new[word]} was turned")
        told = turn_rt(text, names, fields) if path.endswith(".rt") else turn_antt(text, names, fields)
        if told != text:
            count += 1
            with open(path, "w", encoding="utf-8") as f:
                f.write(told)
    print(f"{len(names)} names and {len(fields)} fields, {count} files")


if __name__ == "__main__":
    main()
