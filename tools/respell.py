#!/usr/bin/env python3
"""Brings the repository's own names to the spelling of today's Rattle: words in snake case. Run once, at the top, after port.py.

It goes over the definitions and lemmas in specs/ and proofs/, the clauses and comments of src/, and the names in the pages. Functions of src/, exported
names, strings, inputs and outputs are in snake case already, so that no name of theirs is met. The edits that must fail are turned by tools/edits.py.
"""

import glob
import re

# the library's own, and what is not a word
KEPT = {"within-K"}

# names whose snake form is taken: by a field, or by another name of the same file
OTHERWISE = {"lookAhead": "look_ahead_of", "seenBy": "seen_by_slot", "of-file": "in_its_file", "in-fetch": "is_in_fetch"}

# what a part of a lemma's name speaks of has another name in the library
PARTS = {"getD": "get_or"}

# a lemma or field of a proof that would fall together with a definition, in its file alone
IN_FILE = {
    "crates/answers/proofs/Bounds.antt": {"keys_in": "keys-in"},
    "crates/rules/proofs/images/Offsets.antt": {"gap_at": "gap-at"},
    "crates/image/proofs/restoring/gaps_hold/Proof.antt": {"gap_at": "gap-at"},
    "crates/rules/proofs/calls/Changes.antt": {"all_changed": "all-changed", "left_in": "left-in"},
    "crates/rules/proofs/third/Turns.antt": {"by_condition": "by-condition"},
    "crates/text/proofs/Decimals.antt": {"is_field": "is-field"},
}

TOKEN = re.compile(r"(?<![A-Za-z0-9_'₀-₉-])[A-Za-z_][A-Za-z0-9_'₀-₉-]*")
CAMEL = re.compile(r"^[a-z][a-z0-9₀-₉]*[A-Z]")


def files(kind):
    found = glob.glob(f"crates/*/{kind}/**/*.antt", recursive=True)
    return sorted(path for path in found if "/out/" not in path)


def field_names():
    """The fields of the records of specs/ that have a hyphen."""
    names = set()
    for path in files("specs"):
        with open(path, encoding="utf-8") as text:
            names |= set(re.findall(r"^ +(?:pub )?([a-z][A-Za-z0-9_'₀-₉]*-[A-Za-z0-9_'₀-₉-]*) :", text.read(), re.M))
    return names


def snake(name):
    return re.sub("([A-Z]+)", lambda m: "_" + m.group(1).lower(), name)


def respelled(name, fields):
    if name in OTHERWISE:
        return OTHERWISE[name]
    if name in KEPT:
        return name
    if name in fields:
        return name.replace("-", "_")
    # a lemma's name may begin or end with a definition's, between hyphens
    parts = [PARTS.get(part) or (snake(part) if CAMEL.match(part) else part) for part in name.split("-")]
    return "-".join(parts)


def turn(path, change):
    with open(path, encoding="utf-8") as text:
        old = text.read()
    new = change(old)
    if new != old:
        with open(path, "w", encoding="utf-8") as text:
            text.write(new)


def main():
    fields = field_names()
    for path, names in IN_FILE.items():
        turn(path, lambda text: TOKEN.sub(lambda m: names.get(m.group(0), m.group(0)), text))
    for path in files("specs") + files("proofs") + sorted(glob.glob("crates/*/src/*.rt")):
        turn(path, lambda text: TOKEN.sub(lambda m: respelled(m.group(0), fields), text))
    for path in ["README.md", "CONTRIBUTING.md", "checker/README.md"] + sorted(glob.glob("docs/*.md")):
        turn(path, lambda text: re.sub("`[^`\n]*`", lambda quoted: TOKEN.sub(lambda m: respelled(m.group(0), fields), quoted.group(0)), text))


if __name__ == "__main__":
    main()
