#!/usr/bin/env python3
"""Brings the repository's own names to the library's spelling: words in snake case.

It turns definitions, lemmas, constructors and fields of specs/ and proofs/, and what clauses, must-fail edits and pages say of them. Types, facts and modules keep
their capitals; names of src/, exported names, strings, inputs and outputs have none of these names and stay. Where a name would fall together with another one
beside it, the lemma of the two gets `_lem`.
usage, at the top of the repository, once, right after the kit's own scripts: python3 tools/snake_names.py"""

import pathlib
import re

WORD = re.compile(r"[^\W\d][\w'-]*")
CAMEL = re.compile(r"(?<=[a-z0-9])([A-Z])")
WHOLE = {"getD": "get_or"}
# lemmas that would get the name of the definition that they are about
LEMMAS = {
    "crates/facts/proofs/RowsFold.antt": ["step_in", "new_line"],
    "crates/layout/proofs/Reversed.antt": ["steps_back"],
    "crates/layout/proofs/Sound.antt": ["steps_back"],
    "crates/layout/proofs/Complete.antt": ["new_line"],
    "crates/running/proofs/Performed.antt": ["step_from"],
}


def part(word):
    """One part of a name, between dashes: in snake case where it begins in lower case; a type's or a fact's name as it is."""
    if word in WHOLE:
        return WHOLE[word]
    if not word[:1].islower():
        return word
    return CAMEL.sub(lambda m: "_" + m[1].lower(), word)


def turned(name):
    return "-".join(part(w) for w in name.split("-"))


def texts():
    for p in sorted(pathlib.Path("crates").rglob("*")):
        if p.suffix in (".rt", ".antt", ".edit") and "out" not in p.parts:
            yield p


def main():
    own = set()
    for p in texts():
        old = p.read_text()
        lemmas = LEMMAS.get(str(p), [])
        new = re.sub(r"(?<![\w'-])(" + "|".join(lemmas) + r")(?![\w'-])", r"\1_lem", old) if lemmas else old
        own.update(w for w in WORD.findall(new) if turned(w) != w)
        new = WORD.sub(lambda m: turned(m[0]), new)
        if new != old:
            p.write_text(new)
    # in the pages only the names that the crates have
    for p in [pathlib.Path("README.md"), pathlib.Path("CONTRIBUTING.md"), *sorted(pathlib.Path("docs").glob("*.md"))]:
        old = p.read_text()
        new = WORD.sub(lambda m: turned(m[0]) if m[0] in own else m[0], old)
        if new != old:
            p.write_text(new)
    print(f"{len(own)} names")


if __name__ == "__main__":
    main()
