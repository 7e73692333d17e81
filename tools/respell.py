#!/usr/bin/env python3
"""Brings the repository's own definitions and lemmas to today's spelling: words in snake case.

Run once, at the top of the checkout, after the toolchain's own script (port.py) and before any edit by hand. It goes
over crates/ and turns, in .rt, .antt and .edit files,
- each name with a hump, as byteLength, to byte_length: definitions, lemmas, fields of records, variables of proofs;
- each name with a dash that a file of specs/ declares as a definition or a field, as body-163, to body_163. A dash in
  the name of a lemma stays: it parts the words of a lemma's name, as it does in the library.
Text between double quotes stays as it is; so do names of types, modules and variants, and names that the prover makes
of the source (in-Some, returns-in-None).

Usage: tools/respell.py
"""

import os
import re
import sys

TOKEN = re.compile(r"\"[^\"\n]*\"|[^\W\d][\w'-]*")
HUMP = re.compile(r"(?<=[a-z0-9])([A-Z])")
DECLARED = re.compile(r"^\s*(?:abbrev |unfoldable )?pub ([a-z][\w'-]*)(?: [({].*?)? : ", re.MULTILINE)

# In these files of specs/ stand lemmas that an impl cites as its law.
LEMMAS = "Filled.antt"


def files():
    for folder, folders, names in os.walk("crates"):
        folders[:] = sorted(f for f in folders if f != "out")
        for name in sorted(names):
            if name.endswith((".rt", ".antt", ".edit")):
                yield os.path.join(folder, name)


def read(path):
    with open(path, encoding="utf-8") as file:
        return file.read()


def dashed(texts):
    """The names with a dash that specs/ declares, lemmas aside."""
    found = set()
    for path, text in texts.items():
        if "/specs/" in path and path.endswith(".antt") and not path.endswith(LEMMAS):
            found |= {name for name in DECLARED.findall(text) if "-" in name}
    return found


def respelled(name, dashes):
    if name in dashes:
        return name.replace("-", "_")
    if re.match("[a-z]", name) and "-" not in name:
        return HUMP.sub(lambda hump: "_" + hump.group(1).lower(), name)
    return name


def main():
    texts = {path: read(path) for path in files()}
    dashes = dashed(texts)
    turned = {}
    for path, text in texts.items():
        def turn(match):
            old = match.group(0)
            new = respelled(old, dashes)
            if new != old:
                turned[old] = new
            return new

        new = TOKEN.sub(turn, text)
        if new != text:
            with open(path, "w", encoding="utf-8") as file:
                file.write(new)
    for old in sorted(turned):
        print(f"{old} {turned[old]}")
    return 0


if __name__ == "__main__":
    sys.exit(main())
