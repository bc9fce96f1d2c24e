#!/usr/bin/env python3
"""Respells this repository's own definitions and lemmas: words in snake case, types in camel case.

usage: python3 tools/respell.py     at the top, once, right after the kit's port.py

Own names are those that specs/*.antt and proofs/*.antt of a crate define. Names of the toolchain's library,
of functions of src/ and of generated goals stay as they are.
"""

import os
import re

TOKEN = re.compile(r"[A-Za-z_][\w'-]*")
ODD = re.compile(r"-|^[a-z][\w']*[A-Z]")
# names that would fall together with another name if they were only respelled
BY_HAND = {
    "bit-and": "bit_of_and",
    "bit-or": "bit_of_or",
    "bit-xor": "bit_of_xor",
    "taken-G": "taken_g",
    "Hex-at": "HexAt",
    "Plain-at": "PlainAt",
    "Short-at": "ShortAt",
    "Unit-at": "UnitAt",
}
# local variables of lemmas
LOCALS = {"no-hex", "no-holder", "no-keep", "no-leave", "no-share", "no-take", "not-ended", "not-old", "took-last", "unfold-it"}
DEFINES = re.compile(r"^(?:  )*(?:(?:abbrev|unfoldable|opaque|pub) )*([A-Za-z_][\w'-]*) (?:[({].*[)}] )?: ")
TYPES = re.compile(r"^(?:  )*(?:pub )?(?:record|data) ([A-Za-z_][\w'-]*)")
USES = re.compile(r"use ([\w.'+-]+)\.\{([^}]*)\}")
ALIAS = re.compile(r"use ([\w.'+-]+) as ([A-Za-z_][\w'-]*)")


def snake(name):
    if name in BY_HAND:
        return BY_HAND[name]
    name = name.replace("-", "_")
    return re.sub(r"([a-z0-9'])([A-Z])", lambda m: m.group(1) + "_" + m.group(2).lower(), name)


def files():
    for folder, dirs, names in os.walk("crates"):
        dirs[:] = sorted(d for d in dirs if d != "out")
        for name in sorted(names):
            if name.endswith((".antt", ".rt")):
                yield os.path.join(folder, name)


def shelf(path):
    """Whether a file is one of definitions or lemmas, and not of a function's goals."""
    parts = path.split(os.sep)
    return parts[-1].endswith(".antt") and len(parts) == 4 and parts[2] in ("specs", "proofs")


def own(module):
    parts = module.split(".")
    return parts[0] == "Rattle" and os.path.isdir(os.path.join("crates", parts[1])) and parts[-1] not in ("Goals", "Given") and "declared" not in parts


def defined():
    names, fields = set(), set()
    for path in files():
        if not shelf(path):
            continue
        inside = False
        for line in open(path, encoding="utf-8"):
            t = TYPES.match(line)
            if t:
                names.add(t.group(1))
                inside = True
                continue
            if line.strip() and not line.startswith(" "):
                inside = False
            d = DEFINES.match(line)
            if d and not line.lstrip().startswith(("--", "let ")):
                (fields if inside else names).add(d.group(1))
    return {n for n in names if ODD.search(n)}, {n for n in fields if ODD.search(n)}


def main():
    names, fields = defined()
    both = names | fields
    for path in files():
        text = open(path, encoding="utf-8").read()
        if shelf(path):
            here = both | LOCALS
        else:
            here = set()
            for module, list_ in USES.findall(text):
                if own(module):
                    here |= {n.strip().split(" as ")[0] for n in list_.split(",")} & both
        aliases = {a for m, a in ALIAS.findall(text) if own(m)}

        def turn(m):
            word, before = m.group(0), text[: m.start()]
            after = text[m.end() : m.end() + 2]
            known = word in here
            if word in both and before.endswith("."):
                head = re.search(r"([A-Za-z_][\w'-]*)\.$", before)
                known = known or (head is not None and head.group(1) in aliases) or word in fields
            if word in fields and after == " =":
                known = True
            return snake(word) if known else word

        new = TOKEN.sub(turn, text)
        if new != text:
            open(path, "w", encoding="utf-8").write(new)


if __name__ == "__main__":
    main()
