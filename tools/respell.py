#!/usr/bin/env python3
"""Brings the names that this repository gave its own definitions and lemmas to the spelling of the logic's library: a word is in
snake case, as in `place_of` and `octets_of-same`; types, facts and modules keep their upper camel case.

usage: tools/respell.py      at the top of the repository, once, behind the port to the newer Rattle

It goes by text: each name that begins with a small letter, stands in a file of specs/ or proofs/ and has a capital behind a small
letter or a digit is respelled wherever it stands in crates/: in definitions, laws, contracts, comments and must-fail edits. It stops
where two names would fall together. Names from the library are in this spelling already.
"""
import glob
import re
import sys

SPECIAL = {"all_right": "all_right_lem", "last_row": "last_row_lem"}  # lemmas that would have the name of the function that they are about
NAME = re.compile(r"(?<![\w'\-])[a-z][\w'\-]*")
CAMEL = re.compile(r"(?<=[a-z0-9])([A-Z])(?=[a-z0-9])|(?<=[a-z0-9])([A-Z])(?![A-Za-z0-9])")


def snake(name):
    if name in SPECIAL:
        return SPECIAL[name]
    name = re.sub(r"^getD(?=-)", "get_or", name)  # `get_or` is what the library calls it now
    return "-".join(part if part[:1].isupper() else CAMEL.sub(lambda m: "_" + m.group(0).lower(), part) for part in name.split("-"))


def files(*kinds):
    return sorted(f for k in kinds for f in glob.glob("crates/" + k, recursive=True))


def main():
    logic = files("*/specs/**/*.antt", "*/proofs/**/*.antt")
    seen, new = set(), {}
    for path in logic:
        text = open(path, encoding="utf-8").read()
        seen |= set(NAME.findall(text))
    for name in seen:
        if snake(name) != name:
            new[name] = snake(name)
    back = {}
    for old, to in sorted(new.items()):
        if to in back:
            print(f"respell: {back[to]} and {old} fall together", file=sys.stderr)
            return 1
        back[to] = old
    if "--list" in sys.argv:
        for o, t in sorted(new.items()):
            print(o, t)
        return 0
    for path in logic + files("*/src/**/*.rt", "*/must-fail/*.edit"):
        with open(path, encoding="utf-8") as f:
            text = f.read()
        turned = NAME.sub(lambda m: new.get(m.group(0), m.group(0)), text)
        if turned != text:
            with open(path, "w", encoding="utf-8") as f:
                f.write(turned)
    print(f"respell: {len(new)} names")
    return 0


if __name__ == "__main__":
    sys.exit(main())
