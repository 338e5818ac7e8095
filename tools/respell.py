#!/usr/bin/env python3
"""Respells the definitions and lemmas of this repository that still have capitals inside a lower-case name, as `codedBits` for `coded_bits`.

usage: python3 tools/respell.py     at the top of the repository, once, after the toolchain's port.py and before any edit by hand

A name is taken where specs/ or proofs/ of a crate declares it, or an import gives it. Strings of src/ are left alone. It proves nothing.
"""

import os
import re

# Where the rule alone would make two names one, or where an older script split a name of the library's in two.
BY_HAND = {
    "getD-written": "get_or-written",
    "get_d_tabulate": "get_or-tabulate",
    "get_d_kept": "get_or-kept",
    "kept_from": "kept_from_lem",
    # a variable
    "padFrom": "pad_from",
}
# What port.py has turned elsewhere, and what stands on in edits and comments.
LIBRARY = {
    "getD": "get_or",
    "bitAt": "bit_at",
    "bitOf": "bit_of",
    "bytesOf": "bytes_of",
    "byteOf": "byte_of",
    "placeOf": "place_of",
    "turnOf": "turn_of",
}
DECLARED = re.compile(r"^\s*(?:(?:abbrev|unfoldable|pub|record|data) )*([A-Za-z_][\w'\-₀-₉]*) :", re.M)
ALIAS = re.compile(r" as ([a-z][\w']*)[,}]")
CAMEL = re.compile(r"^[a-z][\w'\-]*[a-z0-9][A-Z]")


def files(endings):
    for folder, dirs, names in os.walk("crates"):
        dirs[:] = sorted(d for d in dirs if d != "out")
        for name in sorted(names):
            if name.endswith(endings):
                yield os.path.join(folder, name)


def read(path):
    with open(path, encoding="utf-8") as f:
        return f.read()


def snake(name):
    return re.sub(r"([a-z0-9])([A-Z])", r"\1_\2", name).lower()


def table():
    names = dict(BY_HAND)
    for path in files((".antt", ".rt")):
        text = read(path)
        for name in (DECLARED.findall(text) if path.endswith(".antt") else []) + ALIAS.findall(text):
            if CAMEL.match(name):
                names.setdefault(name, snake(name))
    return names


def respelled(text, names):
    def one(match):
        name = match.group(0)
        if name in names:
            return names[name]
        # a dash joins names: each part by itself
        return "-".join(names.get(part, part) for part in name.split("-"))

    return re.sub(r"(?<![\\\w'])[A-Za-z_][\w']*(?:-[\w'₀-₉]+)*", one, text)


def outside_strings(text, names):
    parts = re.split(r'("(?:[^"\\\n]|\\.)*")', text)
    return "".join(p if k % 2 else respelled(p, names) for k, p in enumerate(parts))


def main():
    names = table()
    for path in files((".antt", ".rt", ".edit")):
        old = read(path)
        if path.endswith(".rt"):
            new = outside_strings(old, names)
        elif path.endswith(".edit"):
            new = respelled(old, {**LIBRARY, **names})
        else:
            new = respelled(old, names)
        if new != old:
            with open(path, "w", encoding="utf-8") as f:
                f.write(new)
    print(f"respell: {len(names)} names")


if __name__ == "__main__":
    main()
